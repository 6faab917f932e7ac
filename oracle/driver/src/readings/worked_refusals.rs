//! Worked out by hand: fields cut short, room, the order of refusals, and marks.
use super::case::AMPLE;
use super::worked::{Worked, by_words, one, reads, with};
use crate::tables::built_in::{field, number, set, sized, table};
use model::numbers::Kind;
use model::reading::PADDING;

pub fn all() -> Vec<Worked> {
    let rules = [cut_short(), room(), order(), marks()];
    rules.into_iter().flatten().collect()
}

/// Number kinds give 4, the others 2, in bits.
fn cut_short() -> Vec<Worked> {
    let numbers = [
        Kind::BitLookup,
        Kind::Number,
        Kind::Lookup,
        Kind::IndirectLookup,
        Kind::Pgn,
        Kind::IsoName,
    ];
    let others = [
        Kind::Date,
        Kind::Mmsi,
        Kind::Duration,
        Kind::Time,
        Kind::Reserved,
        Kind::Spare,
    ];
    let of_numbers = numbers.map(|kind| one(field(kind, 16), "01", &["F 4 0", "D -"]));
    let of_others = others.map(|kind| one(field(kind, 16), "01", &["F 2 0 16 8", "D -"]));
    let float = one(field(Kind::Float, 32), "010203", &["F 2 0 32 24", "D -"]);
    let nothing = one(field(Kind::Time, 1), "", &["F 2 0 1 0", "D -"]);
    let inside = reads(
        table(&[number(4), field(Kind::Date, 16)], &[]),
        "1502",
        &["R 0 - 0 4 A 5 U8 5", "F 2 1 16 12", "D -"],
    );
    let mut all: Vec<Worked> = of_numbers.into_iter().chain(of_others).collect();
    all.extend([float, nothing, inside]);
    all
}

/// The read is refused before the room; skipped fields need none; the count of a set comes first.
fn room() -> Vec<Worked> {
    let two = || table(&[number(8); 2], &[]);
    let skip = |kind| table(&[number(8), field(kind, 8)], &[]);
    let counted = |maximum| table(&[number(8), number(32)], &[set(1, 1, 0, maximum)]);
    let first = "R 0 - 0 8 A 1 U8 1";
    let second = "R 1 - 8 8 A 2 U8 2";
    let counter = "R 0 - 0 8 A 3 U8 3";
    let element = "R 1 0 8 32 A 0 U32 0";
    let text = table(&[field(Kind::StringFix, 264)], &[]);
    let limited =
        |room, table, payload, wanted: &[&str]| with(room, PADDING, table, payload, wanted);
    vec![
        limited(2, two(), "0102", &[first, second, "E 16 2", "D -"]),
        limited(u64::MAX, two(), "0102", &[first, second, "E 16 2", "D -"]),
        limited(1, two(), "0102", &[first, "F 9 1", "D -"]),
        limited(0, two(), "0102", &["F 9 0", "D -"]),
        limited(1, two(), "01", &[first, "F 4 1", "D -"]),
        limited(0, two(), "", &["F 4 0", "D -"]),
        limited(1, skip(Kind::Reserved), "0102", &[first, "E 16 1", "D -"]),
        limited(1, skip(Kind::Spare), "01", &[first, "F 2 1 8 0", "D -"]),
        limited(0, skip(Kind::Spare), "0102", &["F 9 0", "D -"]),
        limited(1, counted(1), "03 00*8", &[counter, "F 5 0 2 1", "D -"]),
        limited(1, counted(2), "03 00*8", &[counter, "F 9 1", "D -"]),
        limited(
            2,
            counted(2),
            "03 00*8",
            &[counter, element, "F 9 1", "D -"],
        ),
        limited(0, counted(2), "03 00*8", &["F 9 0", "D -"]),
        limited(0, text, "", &["F 9 0", "D -"]),
        limited(0, sized(2, 1, &[number(8)]), "01", &["F 9 0", "D 01FF"]),
    ]
}

/// 7 for the payload, 7 for the run, 8, the walk. 7 and 8 touch nothing.
fn order() -> Vec<Worked> {
    let broken = || sized(4, 1, &[number(0)]);
    let fine = || sized(4, 1, &[number(8)]);
    let read = ["R 0 - 0 8 A 0 U8 0", "E 8 1", "D -"];
    let run =
        |padding, table, payload, wanted: &[&str]| with(AMPLE, padding, table, payload, wanted);
    vec![
        run(222, broken(), "00*224", &["F 7 224", "D -"]),
        run(222, broken(), "00*223", &["F 7 222", "D -"]),
        run(223, broken(), "00*223", &["F 8 c 0", "D -"]),
        run(223, broken(), "00", &["F 8 c 0", "D -"]),
        with(0, 223, broken(), "", &["F 8 c 0", "D -"]),
        run(223, table(&[], &[]), "", &["F 8 a 0", "D -"]),
        run(223, fine(), "00*224", &["F 7 224", "D -"]),
        run(223, fine(), "00*300", &["F 7 300", "D -"]),
        run(223, fine(), "00*223", &read),
        // The run's length counts where it is filled, and where it is not.
        run(222, fine(), "00", &["F 7 222", "D -"]),
        run(224, fine(), "00*4", &["F 7 224", "D -"]),
        run(0, fine(), "00*4", &["F 7 0", "D -"]),
        run(300, fine(), "", &["F 7 300", "D -"]),
    ]
}

/// A mark that is neither single nor double, or a resolution without one, is refused: the number is not
/// read as if it had none. The unused bits of a field say nothing.
fn marks() -> Vec<Worked> {
    const BYTE: u64 = 8 << 8;
    const SOME: u64 = 0x3C23_D70A << 32;
    let one = |word, wanted: &[&str]| by_words(&[1, word], "2A", wanted);
    let refused = ["F 8 d 0", "D -"];
    let unscaled = ["R 0 - 0 8 A 2A U8 2A", "E 8 1", "D -"];
    vec![
        one(SOME | 3 << 25 | BYTE, &refused),
        one(SOME | BYTE, &refused),
        one(3 << 25 | BYTE, &refused),
        one(SOME | BYTE | Kind::Reserved as u64, &refused),
        one(SOME | BYTE | Kind::StringFix as u64, &refused),
        by_words(&[2, BYTE, BYTE | 3 << 25], "2A", &["F 8 d 1", "D -"]),
        one(0x1F << 27 | BYTE, &unscaled),
    ]
}
