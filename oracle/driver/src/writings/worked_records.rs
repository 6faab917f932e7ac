//! Worked out by hand: values as bytes, each in its place, what is not looked at, and what is no value.
use super::worked::{Worked, lends, of};
use crate::payload::lines::worked_bytes as bytes;
use crate::tables::built_in::{bare, double, field, number, signed};
use model::numbers::Kind;
use model::tables::Field;

pub fn all() -> Vec<Worked> {
    let rules = [kinds(), unseen(), of_no_kind(), cut_short()];
    rules.into_iter().flatten().collect()
}

/// One field, records as bytes, the lent text 41 42 43 44, and a buffer of 8 bytes.
fn of_records(field: Field, records: &str, outcome: &'static str, start: &str) -> Worked {
    let start = bytes(start);
    let buffer = [start.clone(), vec![0xFF; 8 - start.len()]].concat();
    let mut worked = lends(8, of(&[field]), &[], "41424344", outcome, "");
    worked.case.values = bytes(records);
    Worked { buffer, ..worked }
}

/// The kinds from 1 to 11, low byte first.
fn kinds() -> Vec<Worked> {
    let wide = number(64);
    let wide_signed = signed(number(64));
    let scaled = double(number(8), 1.0);
    let float = field(Kind::Float, 32);
    let all = "0807060504030201";
    vec![
        of_records(wide, "01 00*7 0807060504030201 00*8", "ok 8", all),
        of_records(wide, "02 00*7 04030201 00*12", "ok 8", "0403020100000000"),
        of_records(wide, "03 00*7 0201 00*14", "ok 8", "0201 00*6"),
        of_records(wide, "04 00*7 FF 00*15", "ok 8", "FF 00*7"),
        of_records(wide_signed, "05 00*7 FE FF*7 00*8", "ok 8", "FE FF*7"),
        of_records(
            wide_signed,
            "06 00*7 00000080 FF*4 00*8",
            "ok 8",
            "00000080 FF*4",
        ),
        of_records(wide_signed, "07 00*7 0080 FF*6 00*8", "ok 8", "0080 FF*6"),
        of_records(wide_signed, "08 00*7 80 FF*7 00*8", "ok 8", "80 FF*7"),
        // 2.0 as an f64 and as an f32.
        of_records(scaled, "09 00*7 00*7 40 00*8", "ok 1", "02"),
        of_records(float, "0A 00*7 00000040 00*12", "ok 4", "00000040"),
        // Two bytes from the second on; an encoding byte 07.
        of_records(
            field(Kind::StringFix, 24),
            "0B 00*7 01 00*7 02 00*7",
            "ok 3",
            "4243FF",
        ),
        of_records(
            bare(Kind::StringLau),
            "0B0107 00*5 03 00*7 01 00*7",
            "ok 3",
            "030744",
        ),
    ]
}

/// Bytes that are not looked at, and any flag but 0.
fn unseen() -> Vec<Worked> {
    let fix = field(Kind::StringFix, 8);
    vec![
        of_records(number(8), "04 FF*7 05 00*7 FF*8", "ok 1", "05"),
        of_records(fix, "0B00 FF*6 00*8 01 00*7", "ok 1", "41"),
        of_records(bare(Kind::StringLau), "0B8001 FF*5 00*16", "ok 2", "0201"),
        of_records(fix, "0B8000 00*5 00*8 01 00*7", "F 11 0", ""),
    ]
}

/// Kinds that there are not, and numbers that are not of their kind: 11.
fn of_no_kind() -> Vec<Worked> {
    let wide = number(64);
    let wide_signed = signed(number(64));
    let float = field(Kind::Float, 32);
    vec![
        of_records(wide, "00*24", "F 11 0", ""),
        of_records(wide, "0C 00*23", "F 11 0", ""),
        of_records(wide, "FF 00*23", "F 11 0", ""),
        // U8 300, U16 65,536, U32 2^32.
        of_records(wide, "04 00*7 2C01 00*14", "F 11 0", ""),
        of_records(wide, "03 00*7 000001 00*13", "F 11 0", ""),
        of_records(wide, "02 00*7 00*4 01 00*11", "F 11 0", ""),
        // I16 40,000, I8 255 and -129, I32 2^31.
        of_records(wide_signed, "07 00*7 409C 00*14", "F 11 0", ""),
        of_records(wide_signed, "08 00*7 FF 00*15", "F 11 0", ""),
        of_records(wide_signed, "08 00*7 7F FF*7 00*8", "F 11 0", ""),
        of_records(wide_signed, "06 00*7 00000080 00*12", "F 11 0", ""),
        // An f32 with a bit above its pattern.
        of_records(float, "0A 00*7 0000803F 01 00*11", "F 11 0", ""),
    ]
}

/// A last record that is cut short counts as a value of no kind.
fn cut_short() -> Vec<Worked> {
    let one = "04 00*7 05 00*15";
    let mut missing = of_records(number(8), one, "F 12 1", "05");
    missing.case.values.push(4);
    vec![
        of_records(number(8), one, "ok 1", "05"),
        of_records(number(8), "04", "F 11 0", ""),
        of_records(number(8), "04 00*7 05 00*14", "F 11 0", ""),
        of_records(number(8), "", "F 12 0", ""),
        missing,
    ]
}
