//! Worked out by hand: repeating sets and their counts.
use super::worked::{Worked, reads};
use crate::tables::built_in::{bare, field, number, set, signed, sized, table};
use model::numbers::Kind;
use model::tables::Table;

pub fn all() -> Vec<Worked> {
    let rules = [
        counts(),
        narrow_counters(),
        elements(),
        shared_counter(),
        texts(),
        states(),
    ];
    rules.into_iter().flatten().collect()
}

/// A counter of 8 bits and a set of one field.
fn counted(width: u32, maximum: usize) -> Table {
    table(&[number(8), number(width)], &[set(1, 1, 0, maximum)])
}

/// The counter's raw, then what fits, then the maximum.
fn counts() -> Vec<Worked> {
    let three = "R 0 - 0 8 A 3 U8 3";
    let followed = || table(&[number(8); 3], &[set(1, 1, 0, 255)]);
    let wide = |maximum| table(&[number(32), number(8)], &[set(1, 1, 0, maximum)]);
    let many = "R 0 - 0 32 A FFFFFFFE U32 FFFFFFFE";
    vec![
        reads(
            followed(),
            "0007",
            &["R 0 - 0 8 A 0 U8 0", "R 2 - 8 8 A 7 U8 7", "E 16 2", "D -"],
        ),
        // All that is left goes to the set, so the field behind it is cut short.
        reads(
            followed(),
            "0207",
            &["R 0 - 0 8 A 2 U8 2", "R 1 0 8 8 A 7 U8 7", "F 4 2", "D -"],
        ),
        reads(counted(32, 1), "03 000000", &[three, "E 8 1", "D -"]),
        // 32 bits left, 12 each: 2, and 8 bits stay unread.
        reads(
            counted(12, 9),
            "03 01200000",
            &[
                three,
                "R 1 0 8 12 A 1 U16 1",
                "R 1 1 20 12 A 2 U16 2",
                "E 32 3",
                "D -",
            ],
        ),
        // Cut to what fits before the maximum is asked, and refused with what fits.
        reads(
            wide(3),
            "FEFFFFFF 010203",
            &[
                many,
                "R 1 0 32 8 A 1 U8 1",
                "R 1 1 40 8 A 2 U8 2",
                "R 1 2 48 8 A 3 U8 3",
                "E 56 4",
                "D -",
            ],
        ),
        reads(wide(2), "FEFFFFFF 010203", &[many, "F 5 0 3 2", "D -"]),
        // Filled bytes count as bits left.
        reads(
            Table {
                sets: vec![set(1, 1, 0, 5)],
                ..sized(4, 1, &[number(8); 2])
            },
            "03",
            &[
                three,
                "R 1 0 8 8 N FF U8 FF",
                "R 1 1 16 8 N FF U8 FF",
                "R 1 2 24 8 N FF U8 FF",
                "E 32 4",
                "D 03FFFFFF",
            ],
        ),
    ]
}

/// All ones is 0 elements at every width, while availability starts at 2 bits.
fn narrow_counters() -> Vec<Worked> {
    let bits = |counter: u32, width: u32| {
        let counter = field(Kind::Lookup, counter);
        table(&[counter, number(width)], &[set(1, 1, 0, 255)])
    };
    vec![
        reads(bits(1, 7), "FF", &["R 0 - 0 1 A 1 U8 1", "E 1 1", "D -"]),
        reads(bits(1, 7), "FE", &["R 0 - 0 1 A 0 U8 0", "E 1 1", "D -"]),
        reads(bits(2, 3), "FF", &["R 0 - 0 2 N 3 U8 3", "E 2 1", "D -"]),
        reads(
            bits(2, 3),
            "36",
            &[
                "R 0 - 0 2 A 2 U8 2",
                "R 1 0 2 3 A 5 U8 5",
                "R 1 1 5 3 A 1 U8 1",
                "E 8 3",
                "D -",
            ],
        ),
    ]
}

/// An element's fields in order, then the next element's; skipped ones count among the declared bits.
fn elements() -> Vec<Worked> {
    let pair = table(&[number(8), number(8), number(16)], &[set(1, 2, 0, 9)]);
    let gap = table(
        &[number(8), number(8), field(Kind::Reserved, 8)],
        &[set(1, 2, 0, 9)],
    );
    let cut = table(
        &[
            number(8),
            number(8),
            field(Kind::Date, 16),
            bare(Kind::StringLau),
        ],
        &[set(1, 3, 0, 9)],
    );
    vec![
        reads(
            pair,
            "02 0A 0B00 0C 0D00",
            &[
                "R 0 - 0 8 A 2 U8 2",
                "R 1 0 8 8 A A U8 A",
                "R 2 0 16 16 A B U16 B",
                "R 1 1 32 8 A C U8 C",
                "R 2 1 40 16 A D U16 D",
                "E 56 5",
                "D -",
            ],
        ),
        reads(
            gap,
            "03 0A FF 0B",
            &["R 0 - 0 8 A 3 U8 3", "R 1 0 8 8 A A U8 A", "E 24 2", "D -"],
        ),
        // 48 bits left, 24 declared: 2. Each text takes 8 more, so the second element is cut short.
        reads(
            cut,
            "02 0A 0B00 00 0C 0D",
            &[
                "R 0 - 0 8 A 2 U8 2",
                "R 1 0 8 8 A A U8 A",
                "R 2 0 16 16 A B U16 B",
                "R 3 0 32 8 N - Bytes 0:0 -",
                "R 1 1 40 8 A C U8 C",
                "F 2 2 16 8",
                "D -",
            ],
        ),
    ]
}

/// Two sets with one counter: each is cut to what is left where it starts.
fn shared_counter() -> Vec<Worked> {
    let two = |maximum| {
        let fields = [number(8), number(8), number(16)];
        table(&fields, &[set(1, 1, 0, 9), set(2, 1, 0, maximum)])
    };
    let first = [
        "R 0 - 0 8 A 2 U8 2",
        "R 1 0 8 8 A A U8 A",
        "R 1 1 16 8 A B U8 B",
    ];
    let then = |rest: &[&'static str]| [&first, rest].concat();
    vec![
        reads(
            two(9),
            "02 0A 0B 0C00",
            &then(&["R 2 0 24 16 A C U16 C", "E 40 4", "D -"]),
        ),
        reads(
            two(9),
            "02 0A 0B 0C00 0D00",
            &then(&[
                "R 2 0 24 16 A C U16 C",
                "R 2 1 40 16 A D U16 D",
                "E 56 5",
                "D -",
            ]),
        ),
        reads(two(1), "02 0A 0B 0C00 0D00", &then(&["F 5 1 2 1", "D -"])),
        reads(two(1), "02 0A 0B", &then(&["E 24 3", "D -"])),
    ]
}

/// A text has no declared bits, and takes what it takes.
fn texts() -> Vec<Worked> {
    let lau = bare(Kind::StringLau);
    let texts = || table(&[number(8), lau, number(8)], &[set(1, 2, 0, 9)]);
    let counter = "R 0 - 0 8 A 2 U8 2";
    let text = "R 1 0 8 24 A - Bytes 3:1 01";
    let after = "R 2 0 32 8 A 7 U8 7";
    vec![
        reads(
            texts(),
            "02 03014107 0108",
            &[
                counter,
                text,
                after,
                "R 1 1 40 8 N - Bytes 0:0 -",
                "R 2 1 48 8 A 8 U8 8",
                "E 56 5",
                "D -",
            ],
        ),
        reads(
            texts(),
            "02 03014107",
            &[counter, text, after, "F 2 1 8 0", "D -"],
        ),
        reads(
            texts(),
            "02 0107 01",
            &[
                counter,
                "R 1 0 8 8 N - Bytes 0:0 -",
                "R 2 0 16 8 A 7 U8 7",
                "R 1 1 24 8 N - Bytes 0:0 -",
                "F 4 2",
                "D -",
            ],
        ),
        reads(texts(), "01 E0 07", &["R 0 - 0 8 A 1 U8 1", "F 4 1", "D -"]),
    ]
}

/// What is not available is so in an element too.
fn states() -> Vec<Worked> {
    let fields = [
        number(8),
        field(Kind::StringFix, 16),
        signed(number(8)),
        field(Kind::Float, 32),
        bare(Kind::StringLau),
        field(Kind::Binary, 8),
    ];
    vec![reads(
        table(&fields, &[set(1, 5, 0, 1)]),
        "01 FF41 7F FFFFFFFF 00 FF",
        &[
            "R 0 - 0 8 A 1 U8 1",
            "R 1 0 8 16 N - Bytes 1:2 -",
            "R 2 0 24 8 N 7F I8 7F",
            "R 3 0 32 32 N FFFFFFFF F32 7FC00000",
            "R 4 0 64 8 N - Bytes 0:0 -",
            "R 5 0 72 8 A - Bytes 9:1 -",
            "E 80 6",
            "D -",
        ],
    )]
}
