//! Tables whose answers were worked out by hand from document 01.
use super::answer::{Answer, hex};
use super::built_in::{
    all as built_in, bare, double, field, number, set, signed, single, sized, table,
};
use super::words::{head, pack};
use super::worked::Case;
use super::worked_rules;
use crate::report::Report;
use model::numbers::{Kind, RESOLUTION_MAX, RESOLUTION_MIN};
use model::tables::Table;

pub fn run(report: &mut Report) {
    let cases = all();
    report.line(
        "tables worked out by hand, by the model",
        outcome(&cases, Answer::model),
    );
    report.line(
        "tables worked out by hand, by ours",
        outcome(&cases, Answer::ours),
    );
}

fn outcome(cases: &[Case], side: fn(&[u64]) -> Answer) -> Result<String, String> {
    for Case { words, answer } in cases {
        let (given, wanted) = (side(words), Answer::of(*answer));
        if given != wanted {
            let (given, wanted) = (given.text(), wanted.text());
            return Err(format!(
                "\n  {}\n  {given}\n  {wanted} is wanted",
                hex(words)
            ));
        }
    }
    Ok(format!("{} cases", cases.len()))
}

fn all() -> Vec<Case> {
    let mut cases = worked_rules::all();
    cases.extend(accepted());
    cases.extend(missing_and_unused());
    cases
}

fn accepted() -> Vec<Case> {
    let lz = bare(Kind::StringLz);
    let fine = |table: Table| Case {
        words: pack(&table),
        answer: Ok(()),
    };
    let ends = [
        single(number(1), RESOLUTION_MIN),
        double(number(64), RESOLUTION_MAX),
        double(field(Kind::Mmsi, 7), 1.0),
        signed(single(field(Kind::Duration, 64), 1.0)),
        signed(field(Kind::IsoName, 64)),
        field(Kind::Binary, 1),
        field(Kind::Binary, 1784),
        field(Kind::StringFix, 1784),
        lz,
    ];
    let four = [1, 17, 33, 49].map(|start| set(start, 16 - start / 49, 0, 255));
    let beside = [set(1, 1, 0, 1), set(2, 2, 0, 255)];
    let texts = [number(1), bare(Kind::StringLau), field(Kind::Spare, 1), lz];
    let mut all: Vec<Case> = built_in().map(fine).into();
    all.extend([
        fine(table(&ends, &[])),
        fine(table(&[field(Kind::Lookup, 32); 64], &four)),
        fine(table(&[number(8); 4], &beside)),
        fine(table(&texts, &[set(1, 2, 0, 1)])),
        fine(sized(223, 223, &[number(8)])),
        fine(sized(1, 1, &[number(8)])),
        fine(sized(0, 223, &[number(8)])),
        fine(sized(1, 0, &[lz])),
    ]);
    all
}

/// Missing words are 0, codes beyond the last are no kind, resolutions stand under no mark or under 3, and
/// words that are left over say nothing.
fn missing_and_unused() -> Vec<Case> {
    const BYTE: u64 = 8 << 8;
    let case = |words: &[u64], answer| Case {
        words: words.to_vec(),
        answer,
    };
    vec![
        case(&[], Err(('a', 0))),
        case(&[head(1, 0, 0, 0)], Err(('c', 0))),
        case(&[head(2, 1, 0, 0), BYTE], Err(('c', 1))),
        case(&[head(2, 1, 0, 0), BYTE, BYTE], Err(('g', 0))),
        case(&[head(2, 0, 0, 0), 0, BYTE | 19], Err(('b', 1))),
        case(&[head(2, 0, 0, 0), 255, BYTE | 19], Err(('b', 0))),
        case(
            &[head(1, 0, 0, 0), BYTE | 3 << 25 | 0x3C23_D70A << 32],
            Err(('d', 0)),
        ),
        case(
            &[head(1, 0, 0, 0), BYTE | 3 << 25 | 0x7FC0_0000 << 32],
            Err(('d', 0)),
        ),
        case(&[head(1, 0, 0, 0), BYTE | 3 << 25], Err(('d', 0))),
        case(&[head(1, 0, 0, 0), BYTE | 0x3C23_D70A << 32], Err(('d', 0))),
        case(&[head(1, 0, 0, 0), BYTE | 0xFF80_0000 << 32], Err(('d', 0))),
        case(&[head(1, 0, 0, 0), BYTE | 1 << 63], Err(('d', 0))),
        case(&[head(1, 0, 0, 0), BYTE | 1 << 32], Err(('d', 0))),
        // On a Reserved, and on a StringLz that is not the last field.
        case(&[head(1, 0, 0, 0), BYTE | 15 | 1 << 32], Err(('d', 0))),
        case(&[head(2, 0, 0, 0), 12 | 1 << 32, BYTE], Err(('d', 0))),
        // Before the counter of a set is looked at, and after a kind and a width.
        case(
            &[
                head(2, 1, 0, 0),
                BYTE | 0x3F80_0000 << 32,
                BYTE,
                1 | 1 << 16 | 1 << 48,
            ],
            Err(('d', 0)),
        ),
        case(
            &[head(2, 0, 0, 0), BYTE | 1 << 32, BYTE | 10],
            Err(('b', 1)),
        ),
        case(&[head(2, 0, 0, 0), BYTE | 3 << 25, 0], Err(('c', 1))),
        case(&[head(1, 0, 0, 0), BYTE | 0x1F << 27, 10, u64::MAX], Ok(())),
    ]
}
