//! Tables put into words, as the library takes them, and the values at which rules turn.
use crate::random::Random;
use model::numbers::{Mark, RESOLUTION_MAX, RESOLUTION_MIN};
use model::tables::{Field, Set, Table};

/// A part of a word: where it starts, and its bits.
#[derive(Clone, Copy, PartialEq, Eq)]
pub struct Part(pub u32, pub u32);

pub const KIND: Part = Part(0, 8);
pub const WIDTH: Part = Part(8, 16);
pub const SIGNED: Part = Part(24, 1);
pub const MARK: Part = Part(25, 2);
pub const UNUSED: Part = Part(27, 5);
pub const RESOLUTION: Part = Part(32, 32);

/// The fields, the sets, the length and the minimum of a head; the start, the size, the counter and
/// the maximum of a set.
pub const QUARTERS: [Part; 4] = [Part(0, 16), Part(16, 16), Part(32, 16), Part(48, 16)];

/// Widths at and beside the limits of the rules, and those that a cast to fewer bits would mend.
pub const WIDTHS: [u64; 30] = [
    0, 1, 2, 7, 8, 9, 15, 16, 17, 24, 31, 32, 33, 63, 64, 65, 72, 255, 256, 257, 264, 288, 1776,
    1783, 1784, 1785, 1792, 2040, 0xFF08, 0xFFFF,
];

/// Resolutions' bits at and beside the limits of rule d, and those that are no such number.
pub const RESOLUTIONS: [u64; 20] = [
    0,
    1,
    0x007F_FFFF,
    0x0080_0000,
    RESOLUTION_MIN.to_bits() as u64 - 1,
    RESOLUTION_MIN.to_bits() as u64,
    RESOLUTION_MIN.to_bits() as u64 + 1,
    0x3C23_D70A,
    0x3F80_0000,
    RESOLUTION_MAX.to_bits() as u64 - 1,
    RESOLUTION_MAX.to_bits() as u64,
    RESOLUTION_MAX.to_bits() as u64 + 1,
    0x7F7F_FFFF,
    0x7F80_0000,
    0x7F80_0001,
    0x7FC0_0000,
    0x8000_0000,
    0xBF80_0000,
    0xFF80_0000,
    0xFFFF_FFFF,
];

/// A part of a word set, without touching the rest.
pub fn put(word: &mut u64, Part(at, bits): Part, value: u64) {
    let ones = (1 << bits) - 1;
    *word = *word & !(ones << at) | (value & ones) << at;
}

pub fn get(word: u64, Part(at, bits): Part) -> u64 {
    word >> at & ((1 << bits) - 1)
}

fn quarters(values: [usize; 4]) -> u64 {
    let mut word = 0;
    for (part, value) in QUARTERS.into_iter().zip(values) {
        put(&mut word, part, value as u64);
    }
    word
}

pub fn head(fields: usize, sets: usize, length: usize, minimum: usize) -> u64 {
    quarters([fields, sets, length, minimum])
}

pub fn set_word(set: &Set) -> u64 {
    quarters([set.start, set.size, set.counter, set.maximum])
}

pub fn field_word(field: &Field) -> u64 {
    let mut word = field.kind as u64;
    put(&mut word, WIDTH, field.width.unwrap_or(0).into());
    put(&mut word, SIGNED, field.signed.into());
    if let Some(scale) = field.scale {
        let mark = match scale.mark {
            Mark::Single => 1,
            Mark::Double => 2,
            Mark::Broken => 3,
        };
        put(&mut word, MARK, mark);
        put(&mut word, RESOLUTION, scale.resolution.to_bits().into());
    }
    word
}

/// A table in words. Its numbers have to fit in 16 bits.
pub fn pack(table: &Table) -> Vec<u64> {
    let (fields, sets) = (table.fields.iter(), table.sets.iter());
    let length = table.length.unwrap_or(0);
    let minimum = table.minimum.unwrap_or(0);
    let mut words = vec![head(fields.len(), sets.len(), length, minimum)];
    words.extend(fields.map(field_word));
    words.extend(sets.map(set_word));
    words
}

/// Fills what says nothing in the words of a table: bits without a meaning, and words after the last.
pub fn fill_unused(words: &mut Vec<u64>, random: &mut Random) {
    let fields = get(words[0], QUARTERS[0]) as usize;
    for word in &mut words[1..=fields] {
        put(word, UNUSED, random.next());
    }
    if random.up_to(3) == 0 {
        words.extend((0..random.up_to(3)).map(|_| random.next()));
    }
}

/// The words of a table, at times with what says nothing filled in.
pub fn any_words(table: &Table, random: &mut Random) -> Vec<u64> {
    let mut words = pack(table);
    if random.up_to(7) == 0 {
        fill_unused(&mut words, random);
    }
    words
}
