//! Worked out by hand: what each kind of field writes, and the walk around sets.
use super::worked::{Worked, byte, double, encoded, lends, of, one, single, text, whole, writes};
use crate::tables::built_in::{self, LAU, LZ, bare, field, number, set, signed, sized, table};
use model::numbers::{Kind, Value, ValueKind};
use model::writing::Given;

pub fn all() -> Vec<Worked> {
    let rules = [
        numbers(),
        skipped(),
        fixed(),
        ended(),
        with_encoding(),
        sets(),
    ];
    rules.into_iter().flatten().collect()
}

/// "All bits after are ones"; "bytes used, rounded up".
fn numbers() -> Vec<Worked> {
    let unit = of(&[built_in::double(number(8), 1.0)]);
    let signed_unit = of(&[built_in::single(signed(number(8)), 1.0)]);
    let float = of(&[field(Kind::Float, 32)]);
    let nan = Given::Number(Value {
        kind: ValueKind::F32,
        bits: 0xFF80_0001,
    });
    let wide = whole(ValueKind::U64, 0x1234);
    let minus = whole(ValueKind::I64, -2);
    vec![
        writes(1, of(&[number(8)]), &[byte(42)], "ok 1", "2A"),
        writes(3, of(&[number(4)]), &[byte(1)], "ok 1", "F1FFFF"),
        writes(2, of(&[number(16)]), &[wide], "ok 2", "3412"),
        // 5 in 3 bits, then 0x1F1 in 9: 101, then 1 0001 1111 from bit 3 on.
        writes(
            2,
            of(&[number(3), number(9)]),
            &[byte(5), whole(ValueKind::U16, 0x1F1)],
            "ok 2",
            "8DFF",
        ),
        writes(1, of(&[signed(number(8))]), &[minus], "ok 1", "FE"),
        writes(1, unit.clone(), &[double(255.4)], "ok 1", "FF"),
        writes(1, unit, &[double(-0.4)], "ok 1", "00"),
        writes(1, signed_unit, &[whole(ValueKind::I8, -128)], "ok 1", "80"),
        writes(4, float.clone(), &[single(1.0)], "ok 4", "0000803F"),
        // Every NaN is one.
        writes(4, float, &[nan], "ok 4", "0000C07F"),
        writes(1, of(&[field(Kind::Binary, 4)]), &[byte(5)], "ok 1", "F5"),
        // A length and a minimum say nothing here.
        writes(3, sized(16, 8, &[number(8)]), &[byte(1)], "ok 1", "01FFFF"),
    ]
}

/// "Skipped fields stay ones."
fn skipped() -> Vec<Worked> {
    let between = of(&[number(4), field(Kind::Spare, 8), number(4)]);
    vec![
        writes(1, of(&[field(Kind::Reserved, 4)]), &[], "ok 1", "FF"),
        writes(1, of(&[field(Kind::Spare, 8)]), &[], "ok 1", "FF"),
        writes(2, between, &[byte(0), byte(0)], "ok 2", "F00F"),
    ]
}

/// "StringFix is filled with 0xFF."
fn fixed() -> Vec<Worked> {
    let four = of(&[field(Kind::StringFix, 32)]);
    let last = of(&[field(Kind::StringFix, 264)]);
    let shifted = of(&[number(8), field(Kind::Binary, 16)]);
    vec![
        lends(
            5,
            four.clone(),
            &[text(1, 2)],
            "404142",
            "ok 4",
            "4142FFFFFF",
        ),
        writes(4, four.clone(), &[text(0, 0)], "ok 4", "FF*4"),
        lends(4, four, &[text(0, 4)], "41424344", "ok 4", "41424344"),
        // The last one is written whole too, though less could be read.
        lends(33, last.clone(), &[text(0, 1)], "41", "ok 33", "41 FF*32"),
        lends(32, last, &[text(0, 1)], "41", "F 2 0 264 256", "FF*32"),
        lends(3, shifted, &[byte(1), text(0, 2)], "4142", "ok 3", "014142"),
        // A lent text may be longer than any buffer that is read or written.
        one(
            1,
            field(Kind::StringFix, 8),
            text(69_999, 1),
            "00*69999 41",
            "ok 1",
            "41",
        ),
    ]
}

/// "LZ writes length, text, zero." An empty one needs no alignment.
fn ended() -> Vec<Worked> {
    let lz = of(&[bare(LZ)]);
    let shifted = of(&[number(4), bare(LZ)]);
    vec![
        lends(5, lz.clone(), &[text(0, 2)], "4142", "ok 4", "02414200FF"),
        writes(3, lz.clone(), &[text(0, 0)], "ok 2", "0000FF"),
        writes(3, shifted, &[byte(1), text(0, 0)], "ok 3", "0100F0"),
        lends(223, lz, &[text(0, 221)], "41*221", "ok 223", "DD 41*221 00"),
    ]
}

/// "It writes length, encoding, text"; "absent writes 1".
fn with_encoding() -> Vec<Worked> {
    let lau = of(&[bare(LAU)]);
    let shifted = of(&[number(4), bare(LAU)]);
    let two = of(&[bare(LAU), bare(LAU)]);
    vec![
        lends(
            5,
            lau.clone(),
            &[encoded(1, 0, 2)],
            "4142",
            "ok 4",
            "04014142FF",
        ),
        writes(3, lau.clone(), &[encoded(0, 0, 0)], "ok 2", "0200FF"),
        writes(2, lau.clone(), &[text(0, 0)], "ok 1", "01FF"),
        writes(2, shifted.clone(), &[byte(1), text(0, 0)], "ok 2", "11F0"),
        writes(3, shifted, &[byte(1), encoded(1, 0, 0)], "ok 3", "2110F0"),
        lends(
            4,
            two,
            &[text(0, 0), encoded(7, 0, 1)],
            "42",
            "ok 4",
            "01030742",
        ),
        lends(
            223,
            lau,
            &[encoded(0, 0, 221)],
            "41*221",
            "ok 223",
            "DF00 41*221",
        ),
    ]
}

/// "The counter's raw (all ones is 0) says how many elements follow."
fn sets() -> Vec<Worked> {
    let bytes = table(&[number(8), number(8)], &[set(1, 1, 0, 2)]);
    let followed = table(&[number(8), number(8), number(8)], &[set(1, 1, 0, 2)]);
    let bit = table(&[number(1), number(7)], &[set(1, 1, 0, 9)]);
    let shared = table(
        &[number(8), number(8), number(8)],
        &[set(1, 1, 0, 9), set(2, 1, 0, 9)],
    );
    let with_gap = table(
        &[number(8), field(Kind::Reserved, 4), number(4)],
        &[set(1, 2, 0, 9)],
    );
    let texts = table(&[number(8), bare(LAU), number(8)], &[set(1, 2, 0, 9)]);
    let of_texts = [byte(2), encoded(1, 0, 1), byte(5), text(0, 0), byte(6)];
    vec![
        writes(3, bytes.clone(), &[2, 7, 8].map(byte), "ok 3", "020708"),
        writes(2, bytes.clone(), &[byte(0)], "ok 1", "00FF"),
        writes(2, bytes.clone(), &[byte(255)], "ok 1", "FFFF"),
        // All ones has no element, so that one is left over.
        writes(2, bytes, &[byte(255), byte(7)], "F 12 2", "FFFF"),
        writes(3, followed, &[byte(1), byte(7), byte(9)], "ok 3", "010709"),
        // A counter of 1 bit never has an element.
        writes(1, bit, &[byte(1)], "ok 1", "FF"),
        writes(5, shared, &[2, 5, 6, 7, 8].map(byte), "ok 5", "0205060708"),
        writes(3, with_gap, &[byte(2), byte(1), byte(2)], "ok 3", "021F2F"),
        lends(7, texts, &of_texts, "41", "ok 7", "02030141 050106"),
    ]
}
