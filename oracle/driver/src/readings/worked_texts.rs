//! Worked out by hand: texts and bytes.
use super::worked::{Worked, reads};
use crate::tables::built_in::{LAU, LZ, bare, field, number, set, table};
use model::numbers::Kind;
use model::tables::Field;

pub fn all() -> Vec<Worked> {
    let rules = [
        fixed(),
        fixed_availability(),
        ended(),
        ended_unaligned(),
        encoded(),
        encoded_unaligned(),
        binary(),
    ];
    rules.into_iter().flatten().collect()
}

fn of(fields: &[Field], payload: &str, wanted: &[&str]) -> Worked {
    reads(table(fields, &[]), payload, wanted)
}

fn fix(bytes: u32) -> Field {
    field(Kind::StringFix, 8 * bytes)
}

/// Of a size from which on the last may stop early.
fn fixed() -> Vec<Worked> {
    let byte = "R 0 - 0 8 A 1 U8 1";
    let nibble = "R 0 - 0 4 A 1 U8 1";
    let whole = ["R 0 - 0 264 A - Bytes 0:33 -", "E 264 1", "D -"];
    let in_a_set = table(&[number(8), bare(LAU), fix(33)], &[set(1, 2, 0, 1)]);
    vec![
        of(&[fix(33)], "41*33", &whole),
        of(&[fix(33)], "41*34", &whole),
        // Only the last field may stop early, and only outside a set.
        of(&[fix(33), number(8)], "41*20", &["F 2 0 33 20", "D -"]),
        reads(
            in_a_set,
            "01 01 41*32",
            &[byte, "R 1 0 8 8 N - Bytes 0:0 -", "F 2 2 33 32", "D -"],
        ),
        // Of no bytes: aligned it is a reading of no bits, unaligned it is refused all the same.
        of(
            &[number(8), fix(33)],
            "01",
            &[byte, "R 1 - 8 0 N - Bytes 0:0 -", "E 8 2", "D -"],
        ),
        of(
            &[fix(33)],
            "",
            &["R 0 - 0 0 N - Bytes 0:0 -", "E 0 1", "D -"],
        ),
        of(&[number(4), fix(33)], "01", &[nibble, "F 3 1 4", "D -"]),
        of(
            &[number(4), fix(33)],
            "01 41*40",
            &[nibble, "F 3 1 4", "D -"],
        ),
        of(&[number(4), fix(1)], "0141", &[nibble, "F 3 1 4", "D -"]),
        of(&[number(8), fix(2)], "0141", &[byte, "F 2 1 2 1", "D -"]),
    ]
}

/// Up to the first FF, 40 or 00.
fn fixed_availability() -> Vec<Worked> {
    let states = [
        ("4142", 'A'),
        ("FF42", 'N'),
        ("4042", 'N'),
        ("0042", 'N'),
        ("41FF", 'A'),
        ("4140", 'A'),
        ("2040", 'A'),
    ];
    let case = |(payload, state): (&str, char)| {
        let reading = format!("R 0 - 0 16 {state} - Bytes 0:2 -");
        of(&[fix(2)], payload, &[&reading, "E 16 1", "D -"])
    };
    states.map(case).into()
}

/// A zero behind the text is taken, once, if it is there.
fn ended() -> Vec<Worked> {
    let one = |payload: &str, wanted: &[&str]| of(&[bare(LZ)], payload, wanted);
    let two = |bits: u32, payload: &str| {
        let reading = format!("R 0 - 0 {bits} A - Bytes 1:2 -");
        one(payload, &[&reading, &format!("E {bits} 1"), "D -"])
    };
    let none = |bits: u32, payload: &str| {
        let reading = format!("R 0 - 0 {bits} N - Bytes 0:0 -");
        one(payload, &[&reading, &format!("E {bits} 1"), "D -"])
    };
    vec![
        two(24, "024142"),
        two(32, "0241420000"),
        none(8, "00"),
        none(16, "0000"),
        none(8, "0001"),
        none(16, "000000"),
        one("", &["F 2 0 8 0", "D -"]),
        one("0541", &["F 2 0 5 1", "D -"]),
        one("DF", &["F 2 0 223 0", "D -"]),
        one("E0", &["F 4 0", "D -"]),
        one("E6", &["F 4 0", "D -"]),
        one("E7", &["F 4 0", "D -"]),
        one("FF", &["F 4 0", "D -"]),
        of(
            &[number(8), bare(LZ)],
            "01",
            &["R 0 - 0 8 A 1 U8 1", "F 2 1 8 0", "D -"],
        ),
        of(
            &[number(8), bare(LZ)],
            "01 01 41",
            &[
                "R 0 - 0 8 A 1 U8 1",
                "R 1 - 8 16 A - Bytes 2:1 -",
                "E 24 2",
                "D -",
            ],
        ),
    ]
}

/// An empty text needs no alignment, and the zero is looked for in the 8 bits after it.
fn ended_unaligned() -> Vec<Worked> {
    let after = |payload: &str, wanted: &[&str]| {
        let wanted = [&["R 0 - 0 4 A 5 U8 5"], wanted, &["D -"]].concat();
        of(&[number(4), bare(LZ)], payload, &wanted)
    };
    let with_zero = ["R 1 - 4 16 N - Bytes 0:0 -", "E 20 2"];
    let without = ["R 1 - 4 8 N - Bytes 0:0 -", "E 12 2"];
    vec![
        after("050000", &with_zero),
        after("050010", &with_zero),
        after("050001", &without),
        after("051000", &without),
        after("0500", &without),
        after("150041", &["F 3 1 12"]),
        after("05", &["F 2 1 8 4"]),
        after("050E", &["F 4 1"]),
        after("F50D", &["F 3 1 12"]),
    ]
}

/// The encoding byte is kept, and is no text.
fn encoded() -> Vec<Worked> {
    let one = |payload: &str, wanted: &[&str]| of(&[bare(LAU)], payload, wanted);
    let text = "R 0 - 0 24 A - Bytes 2:1 01";
    let none = "R 0 - 0 8 N - Bytes 0:0 -";
    let followed = [bare(LAU), number(8)];
    vec![
        one("0100", &[none, "E 8 1", "D -"]),
        one("02FF", &["R 0 - 0 16 N - Bytes 0:0 FF", "E 16 1", "D -"]),
        one("030141", &[text, "E 24 1", "D -"]),
        // A text of a zero or of FF is text.
        one("030100", &[text, "E 24 1", "D -"]),
        one("0301FF", &[text, "E 24 1", "D -"]),
        of(
            &followed,
            "03014107",
            &[text, "R 1 - 24 8 A 7 U8 7", "E 32 2", "D -"],
        ),
        of(
            &followed,
            "0107",
            &[none, "R 1 - 8 8 A 7 U8 7", "E 16 2", "D -"],
        ),
        of(
            &followed,
            "020107",
            &[
                "R 0 - 0 16 N - Bytes 0:0 01",
                "R 1 - 16 8 A 7 U8 7",
                "E 24 2",
                "D -",
            ],
        ),
        // Refusal 2 of one field in bits and in bytes.
        one("", &["F 2 0 8 0", "D -"]),
        one("05", &["F 2 0 8 0", "D -"]),
        one("02", &["F 2 0 8 0", "D -"]),
        one("0501", &["F 2 0 3 0", "D -"]),
        one("050141", &["F 2 0 3 1", "D -"]),
        one("DF01", &["F 2 0 221 0", "D -"]),
        one(
            "DF01 41*221",
            &["R 0 - 0 1784 A - Bytes 2:221 01", "E 1784 1", "D -"],
        ),
        one("E0", &["F 4 0", "D -"]),
        one("E001", &["F 4 0", "D -"]),
        one("FF", &["F 4 0", "D -"]),
    ]
}

fn encoded_unaligned() -> Vec<Worked> {
    let after = |payload: &str, wanted: &[&str]| {
        let wanted = [&["R 0 - 0 4 A 5 U8 5"], wanted, &["D -"]].concat();
        of(&[number(4), bare(LAU)], payload, &wanted)
    };
    let none = ["R 1 - 4 8 N - Bytes 0:0 -", "E 12 2"];
    vec![
        after("0500", &none),
        after("1500", &none),
        after("251000", &["R 1 - 4 16 N - Bytes 0:0 01", "E 20 2"]),
        after("35100041", &["F 3 1 20"]),
        after("05", &["F 2 1 8 4"]),
        after("2510", &["F 2 1 8 4"]),
        after("050E", &["F 4 1"]),
    ]
}

/// Whole bytes are bytes, and always available; else it is a number, cut short with 2.
fn binary() -> Vec<Worked> {
    let bits = |width| field(Kind::Binary, width);
    let nibble = "R 0 - 0 4 A 1 U8 1";
    vec![
        of(
            &[bits(16)],
            "FFFF",
            &["R 0 - 0 16 A - Bytes 0:2 -", "E 16 1", "D -"],
        ),
        of(
            &[bits(8)],
            "00",
            &["R 0 - 0 8 A - Bytes 0:1 -", "E 8 1", "D -"],
        ),
        of(
            &[bits(1784)],
            "FF*223",
            &["R 0 - 0 1784 A - Bytes 0:223 -", "E 1784 1", "D -"],
        ),
        of(&[bits(4)], "0F", &["R 0 - 0 4 N F U8 F", "E 4 1", "D -"]),
        of(&[bits(1)], "01", &["R 0 - 0 1 A 1 U8 1", "E 1 1", "D -"]),
        of(
            &[bits(9)],
            "FF01",
            &["R 0 - 0 9 N 1FF U16 1FF", "E 9 1", "D -"],
        ),
        of(&[bits(9)], "01", &["F 2 0 9 8", "D -"]),
        of(&[number(4), bits(8)], "0100", &[nibble, "F 3 1 4", "D -"]),
        of(&[number(4), bits(8)], "01", &[nibble, "F 3 1 4", "D -"]),
        of(
            &[number(4), bits(12)],
            "1102",
            &[nibble, "R 1 - 4 12 A 21 U16 21", "E 16 2", "D -"],
        ),
        of(
            &[number(8), bits(16)],
            "0141",
            &["R 0 - 0 8 A 1 U8 1", "F 2 1 2 1", "D -"],
        ),
    ]
}
