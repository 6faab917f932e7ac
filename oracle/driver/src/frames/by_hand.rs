//! Lines of the printing program whose answers were worked out by hand from document 01.
use super::printed;
use crate::report::Report;

pub fn run(report: &mut Report) {
    let name = "frames worked out by hand, by the model";
    report.line(name, outcome());
}

fn outcome() -> Result<String, String> {
    let all = all();
    for (line, wanted) in &all {
        let given = printed(line);
        let wanted: String = wanted.iter().map(|line| format!("{line}\n")).collect();
        if given != wanted {
            return Err(format!("\n  {line}\n  {given:?}\n  {wanted:?} is wanted"));
        }
    }
    Ok(format!("{} cases", all.len()))
}

fn all() -> Vec<(String, Vec<&'static str>)> {
    let line = |text: &str, wanted: &[&'static str]| (text.to_string(), wanted.to_vec());
    let long = |pgn: &str, bytes: usize, wanted: &[&'static str]| {
        (format!("{pgn}{}", "00".repeat(bytes)), wanted.to_vec())
    };
    vec![
        // Document 01's own.
        line(
            "01F8022AFC5C3DC098FFFF",
            &[
                "P 01F802 8",
                "R 0 - 0 8 A 2A",
                "R 1 - 8 2 A 0",
                "R 3 - 16 16 A 3D5C",
                "R 4 - 32 16 A 98C0",
                "E 64",
            ],
        ),
        line(
            "01F80205FF",
            &["P 01F802 2", "R 0 - 0 8 A 5", "R 1 - 8 2 N 3", "F 4 3"],
        ),
        line("01F802", &["P 01F802 0", "F 4 0"]),
        line(
            "01F8022AFC5C3DC098FF",
            &[
                "P 01F802 7",
                "R 0 - 0 8 A 2A",
                "R 1 - 8 2 A 0",
                "R 3 - 16 16 A 3D5C",
                "R 4 - 32 16 A 98C0",
                "F 2 5 16 8",
            ],
        ),
        line(
            "01F801FFFFFF7FFFFFFFFF",
            &[
                "P 01F801 8",
                "R 0 - 0 32 N 7FFFFFFF",
                "R 1 - 32 32 A FFFFFFFF",
                "E 64",
            ],
        ),
        line("01F80501", &["P 01F805 1", "R 0 - 0 8 A 1", "F 2 1 16 0"]),
        line("01F80A01", &["F 15 01F80A"]),
        line("81F8022AFC5C3DC098FFFF", &["F 15 81F802"]),
        line("", &["F 14"]),
        line("01F80", &["F 14"]),
        line("01F8020", &["F 14"]),
        line("01f8022AFC5C3DC098FFFF", &["F 14"]),
        line("01F8022AFC5C3DC098FFFF\r", &["F 14"]),
        long("01F802", 224, &["P 01F802 224", "F 7 224"]),
        long("01FF54", 1100, &["P 01FF54 1100", "F 7 1100"]),
        long("000001", 1100, &["F 15 000001"]),
    ]
}
