//! Lines that are not of the form.
use super::cases::LONGEST;
use super::lines::{Side, WORDS_MAX, answered};
use super::program::Program;
use crate::payload::lines::MALFORMED;
use crate::report::Report;

pub fn run(program: &Result<Program, String>, report: &mut Report) {
    let by_model = |lines: &[String]| {
        Ok(lines
            .iter()
            .map(|line| answered(line.as_bytes(), Side::Model))
            .collect())
    };
    let name = "lines that are not of the form, by the model";
    report.line(name, malformed_by(by_model));
    let ours = program.as_ref().map_err(String::clone);
    let name = "lines that are not of the form, by ours";
    report.line(
        name,
        ours.and_then(|program| malformed_by(|lines| program.answers(lines))),
    );
}

/// A line before and after each, to see that the next starts clean.
fn malformed_by(
    answers: impl Fn(&[String]) -> Result<Vec<String>, String>,
) -> Result<String, String> {
    let good = "1 223 1,800 07";
    let wanted = "R 0 - 0 8 A 7 U8 7\nE 8 1\nD -\n";
    let malformed = malformed();
    let mut lines = vec![good.to_string()];
    for line in &malformed {
        lines.extend([line.clone(), good.to_string()]);
    }
    for (i, answer) in answers(&lines)?.iter().enumerate() {
        let wanted = if i % 2 == 0 { wanted } else { MALFORMED };
        if answer != wanted {
            let line = &lines[i];
            return Err(format!("{answer:?}, not {wanted:?}, for {line:?}"));
        }
    }
    Ok(format!("{} cases", malformed.len()))
}

fn malformed() -> Vec<String> {
    let words = |count: usize| vec!["1"; count].join(",");
    let mut all: Vec<String> = [
        "",
        " ",
        "1",
        "1 223",
        "1 223 1,800",
        "1 223 1,800 07 ",
        " 1 223 1,800 07",
        "1  223 1,800 07",
        "1 223 1,800 07 07",
        "1\t223 1,800 07",
        "1 223 1,800 07\r",
        "- 223 1,800 07",
        "+1 223 1,800 07",
        "-1 223 1,800 07",
        "1A 223 1,800 07",
        "18446744073709551616 223 1,800 07",
        "100000000000000000000 223 1,800 07",
        "1 - 1,800 07",
        "1 301 1,800 07",
        "1 18446744073709551839 1,800 07",
        "1 DF 1,800 07",
        "1 223 - 07",
        "1 223 , 07",
        "1 223 1, 07",
        "1 223 ,1 07",
        "1 223 1,,800 07",
        "1 223 1;800 07",
        "1 223 1,80G 07",
        "1 223 1,80a 07",
        "1 223 1,10000000000000000 07",
        "1 223 1,800 0",
        "1 223 1,800 070",
        "1 223 1,800 0a",
        "1 223 1,800 0G",
        "1 223 1,800 --",
        "1 223 1,800 -07",
        "1 223 1,800 0x07",
    ]
    .map(String::from)
    .into();
    all.push(format!("1 223 {} 07", words(WORDS_MAX + 1)));
    all.push(format!("1 223 1,800 {}", "07".repeat(LONGEST + 1)));
    all.push(format!("1 223 1,800 {}", "0".repeat(70_001)));
    all
}
