//! Worked out by hand: the cases of reading that document 01 gives.
use super::worked::{Worked, one, reads};
use crate::tables::built_in::{bare, field, number, set, sized, table, table_129026};
use model::numbers::Kind;

pub fn all() -> Vec<Worked> {
    let rules = [frame(), counts(), texts(), filling()];
    rules.into_iter().flatten().collect()
}

/// The printing program's. 15,708 times 0.0001 and 39,104 times 0.01, each rounded once to an f32.
fn frame() -> Vec<Worked> {
    vec![reads(
        table_129026(),
        "2AFC5C3DC098FFFF",
        &[
            "R 0 - 0 8 A 2A U8 2A",
            "R 1 - 8 2 A 0 U8 0",
            "R 3 - 16 16 A 3D5C F32 3FC90FF9",
            "R 4 - 32 16 A 98C0 F32 43C3851E",
            "E 64 4",
            "D -",
        ],
    )]
}

/// "Counter 255 in 8 bits: 0. 3 declared, 64 bits left, 32 each: 2; maximum 1: refused with 2."
fn counts() -> Vec<Worked> {
    let counted = |maximum| table(&[number(8), number(32)], &[set(1, 1, 0, maximum)]);
    let three = "R 0 - 0 8 A 3 U8 3";
    vec![
        reads(
            counted(255),
            "FF 00*8",
            &["R 0 - 0 8 N FF U8 FF", "E 8 1", "D -"],
        ),
        reads(
            counted(2),
            "03 00*8",
            &[
                three,
                "R 1 0 8 32 A 0 U32 0",
                "R 1 1 40 32 A 0 U32 0",
                "E 72 3",
                "D -",
            ],
        ),
        reads(counted(1), "03 00*8", &[three, "F 5 0 2 1", "D -"]),
    ]
}

/// "LAU 0 or 1: 8 bits; 2: 16 bits, not available. LZ 02 41 42 00: 32 bits; 02 41 42 07: 24. Last
/// StringFix, 33 bytes, 20 left: 20 read; 32 bytes: refused."
fn texts() -> Vec<Worked> {
    let (lau, lz) = (bare(Kind::StringLau), bare(Kind::StringLz));
    let fix = |bytes: u32| field(Kind::StringFix, 8 * bytes);
    let none = ["R 0 - 0 8 N - Bytes 0:0 -", "E 8 1", "D -"];
    vec![
        one(lau, "00", &none),
        one(lau, "01", &none),
        one(
            lau,
            "0201",
            &["R 0 - 0 16 N - Bytes 0:0 01", "E 16 1", "D -"],
        ),
        one(
            lz,
            "02414200",
            &["R 0 - 0 32 A - Bytes 1:2 -", "E 32 1", "D -"],
        ),
        one(
            lz,
            "02414207",
            &["R 0 - 0 24 A - Bytes 1:2 -", "E 24 1", "D -"],
        ),
        one(
            fix(33),
            "41*20",
            &["R 0 - 0 160 A - Bytes 0:20 -", "E 160 1", "D -"],
        ),
        one(fix(32), "41*20", &["F 2 0 32 20", "D -"]),
    ]
}

/// "Minimum 8, length 16: 7 stays 7, 8 becomes 16."
fn filling() -> Vec<Worked> {
    let two = || sized(16, 8, &[number(64); 2]);
    vec![
        reads(two(), "01020304050607", &["F 4 0", "D -"]),
        reads(
            two(),
            "0102030405060708",
            &[
                "R 0 - 0 64 A 807060504030201 U64 807060504030201",
                "R 1 - 64 64 N FFFFFFFFFFFFFFFF U64 FFFFFFFFFFFFFFFF",
                "E 128 2",
                "D 0102030405060708FFFFFFFFFFFFFFFF",
            ],
        ),
    ]
}
