//! Worked out by hand: filling, numbers and what is not available, and skipped fields.
use super::worked::{Worked, one, reads};
use crate::tables::built_in::{double, field, number, signed, single, sized, table};
use model::numbers::Kind;
use model::tables::Field;

pub fn all() -> Vec<Worked> {
    let rules = [filling(), integers(), floats(), skipped()];
    rules.into_iter().flatten().collect()
}

/// Where filling applies, what it is filled with, and what becomes of the run.
fn filling() -> Vec<Worked> {
    let two = || sized(16, 8, &[number(64); 2]);
    let texts = [field(Kind::StringFix, 16); 2];
    let zeros = [
        "R 0 - 0 64 A 0 U64 0",
        "R 1 - 64 64 A 0 U64 0",
        "E 128 2",
        "D -",
    ];
    vec![
        reads(
            two(),
            "00*15",
            &[
                "R 0 - 0 64 A 0 U64 0",
                "R 1 - 64 64 A FF00000000000000 U64 FF00000000000000",
                "E 128 2",
                "D 000000000000000000000000000000FF",
            ],
        ),
        reads(two(), "00*16", &zeros),
        reads(two(), "00*17", &zeros),
        // The run was filled before the walk was refused.
        reads(
            sized(3, 1, &[number(8), number(32)]),
            "05",
            &["R 0 - 0 8 A 5 U8 5", "F 4 1", "D 05FFFF"],
        ),
        // Places are in the working payload.
        reads(
            sized(4, 2, &texts),
            "4142",
            &[
                "R 0 - 0 16 A - Bytes 0:2 -",
                "R 1 - 16 16 N - Bytes 2:2 -",
                "E 32 2",
                "D 4142FFFF",
            ],
        ),
        reads(
            sized(4, 1, &[number(8)]),
            "A5",
            &["R 0 - 0 8 A A5 U8 A5", "E 8 1", "D A5FFFFFF"],
        ),
        // Nothing is filled under the minimum, nor without one of the two.
        reads(sized(2, 2, &[number(16)]), "01", &["F 4 0", "D -"]),
        reads(sized(2, 1, &[number(16)]), "", &["F 4 0", "D -"]),
        reads(sized(0, 1, &[number(16)]), "01", &["F 4 0", "D -"]),
        reads(sized(2, 0, &[number(16)]), "01", &["F 4 0", "D -"]),
    ]
}

/// The kind that the width fits, the sign, and the raw that says nothing, from 2 bits on.
fn integers() -> Vec<Worked> {
    let mmsi = field(Kind::Mmsi, 32);
    let is = |field: Field, payload: &str, reading: &str, end: &str| {
        one(field, payload, &[reading, end, "D -"])
    };
    vec![
        is(number(8), "FF", "R 0 - 0 8 N FF U8 FF", "E 8 1"),
        is(number(8), "FE", "R 0 - 0 8 A FE U8 FE", "E 8 1"),
        is(signed(number(8)), "7F", "R 0 - 0 8 N 7F I8 7F", "E 8 1"),
        is(
            signed(number(8)),
            "FF",
            "R 0 - 0 8 A FF I8 FFFFFFFFFFFFFFFF",
            "E 8 1",
        ),
        is(
            signed(number(12)),
            "0008",
            "R 0 - 0 12 A 800 I16 FFFFFFFFFFFFF800",
            "E 12 1",
        ),
        is(number(1), "01", "R 0 - 0 1 A 1 U8 1", "E 1 1"),
        is(number(2), "03", "R 0 - 0 2 N 3 U8 3", "E 2 1"),
        is(
            signed(number(1)),
            "01",
            "R 0 - 0 1 A 1 I8 FFFFFFFFFFFFFFFF",
            "E 1 1",
        ),
        is(signed(number(2)), "01", "R 0 - 0 2 N 1 I8 1", "E 2 1"),
        is(number(9), "0501", "R 0 - 0 9 A 105 U16 105", "E 9 1"),
        is(
            field(Kind::BitLookup, 17),
            "010001",
            "R 0 - 0 17 A 10001 U32 10001",
            "E 17 1",
        ),
        is(number(33), "0500000000", "R 0 - 0 33 A 5 U64 5", "E 33 1"),
        is(
            field(Kind::Duration, 8),
            "05",
            "R 0 - 0 8 A 5 U16 5",
            "E 8 1",
        ),
        is(field(Kind::Time, 8), "05", "R 0 - 0 8 A 5 U64 5", "E 8 1"),
        is(
            field(Kind::Date, 16),
            "FFFF",
            "R 0 - 0 16 N FFFF U16 FFFF",
            "E 16 1",
        ),
        is(mmsi, "00000000", "R 0 - 0 32 A 0 U32 0", "E 32 1"),
        is(
            mmsi,
            "FFFFFFFF",
            "R 0 - 0 32 N FFFFFFFF U32 FFFFFFFF",
            "E 32 1",
        ),
    ]
}

/// A NaN is not available, whatever its bits; all other Floats are. 3 times 0.5 is 1.5.
fn floats() -> Vec<Worked> {
    let float = field(Kind::Float, 32);
    let is = |field: Field, payload: &str, reading: &str| {
        let end = if payload.len() == 8 {
            "E 32 1"
        } else {
            "E 8 1"
        };
        one(field, payload, &[reading, end, "D -"])
    };
    vec![
        is(float, "0000803F", "R 0 - 0 32 A 3F800000 F32 3F800000"),
        is(float, "0000807F", "R 0 - 0 32 A 7F800000 F32 7F800000"),
        is(float, "010080FF", "R 0 - 0 32 N FF800001 F32 7FC00000"),
        is(float, "FFFFFFFF", "R 0 - 0 32 N FFFFFFFF F32 7FC00000"),
        is(single(number(8), 0.5), "03", "R 0 - 0 8 A 3 F32 3FC00000"),
        is(
            double(number(8), 0.5),
            "03",
            "R 0 - 0 8 A 3 F64 3FF8000000000000",
        ),
        is(
            single(field(Kind::Time, 8), 0.5),
            "03",
            "R 0 - 0 8 A 3 F64 3FF8000000000000",
        ),
        is(single(number(8), 0.5), "FF", "R 0 - 0 8 N FF F32 42FF0000"),
        is(
            single(signed(number(8)), 0.5),
            "FF",
            "R 0 - 0 8 A FF F32 BF000000",
        ),
        is(
            single(field(Kind::Mmsi, 8), 0.5),
            "00",
            "R 0 - 0 8 A 0 F32 0",
        ),
    ]
}

fn skipped() -> Vec<Worked> {
    let reserved = field(Kind::Reserved, 8);
    let spare = field(Kind::Spare, 3);
    vec![
        reads(
            table(&[reserved, number(8)], &[]),
            "0102",
            &["R 1 - 8 8 A 2 U8 2", "E 16 1", "D -"],
        ),
        reads(
            table(&[spare, number(5)], &[]),
            "11",
            &["R 1 - 3 5 A 2 U8 2", "E 8 1", "D -"],
        ),
        one(reserved, "FF", &["E 8 0", "D -"]),
    ]
}
