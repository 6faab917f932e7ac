//! The cases that are compared: every one over short buffers, and random ones around the limits.
use crate::case::{Call, Case};
use crate::random::Random;

/// The seed of all random cases.
pub const SEED: u64 = 0x5A40_0901_2000_0001;

/// The longest buffer of the exhaustive cases, in bytes: room for the widest number at any bit of a
/// byte, and for one more byte.
const SHORT: usize = 10;

/// Cursors far past the end of every short buffer.
const FAR: [usize; 10] = [
    65_536 * 8 - 1,
    65_536 * 8,
    65_536 * 8 + 1,
    u32::MAX as usize,
    1 << 63,
    usize::MAX - 64,
    usize::MAX - 63,
    usize::MAX - 7,
    usize::MAX - 1,
    usize::MAX,
];

/// Widths and lengths beyond the small ones, chosen where a cast or a sum would go wrong.
const WIDE: [usize; 5] = [255, 256, 257, 65_535, u32::MAX as usize];
const LONG: [usize; 8] = [
    65_536,
    1 << 60,
    1 << 61,
    (1 << 61) + 1,
    1 << 63,
    usize::MAX - 2,
    usize::MAX - 1,
    usize::MAX,
];

/// Every cursor, width or length, several contents and values, over every short length.
pub fn exhaustive(call: Call, visit: &mut dyn FnMut(&Case)) {
    let mut random = Random::new(SEED);
    for length in 0..=SHORT {
        for buffer in contents(length, &mut random) {
            let mut case = Case::new(call);
            case.buffer = buffer;
            for cursor in (0..=8 * length + 9).chain(FAR) {
                case.cursor = cursor;
                each_input(&mut case, &mut random, visit);
            }
        }
    }
}

/// Contents of a short buffer: all of them up to one byte, then patterns and random ones.
fn contents(length: usize, random: &mut Random) -> Vec<Vec<u8>> {
    match length {
        0 => vec![vec![]],
        1 => (0..=u8::MAX).map(|byte| vec![byte]).collect(),
        _ => {
            let mut all: Vec<Vec<u8>> = [0x00, 0xFF, 0xA5, 0x5A]
                .iter()
                .map(|&byte| vec![byte; length])
                .collect();
            all.push((1..=length as u8).collect());
            all.extend((0..3).map(|_| random.bytes(length)));
            all
        }
    }
}

fn each_input(case: &mut Case, random: &mut Random, visit: &mut dyn FnMut(&Case)) {
    match case.call {
        Call::BitsRemaining => visit(case),
        Call::ReadSlice => {
            for count in (0..=SHORT + 2).chain(LONG) {
                case.count = count;
                visit(case);
            }
        }
        Call::WriteSlice => {
            for count in 0..=SHORT + 2 {
                case.count = count;
                case.source = random.bytes(count);
                visit(case);
            }
        }
        _ => {
            for width in (0..=66).chain(WIDE) {
                case.count = width;
                each_value(case, random, visit);
            }
        }
    }
}

fn each_value(case: &mut Case, random: &mut Random, visit: &mut dyn FnMut(&Case)) {
    let Call::Write(size) = case.call else {
        visit(case);
        return;
    };
    for value in [0, u64::MAX, 0x5555_5555_5555_5555, random.next()] {
        case.value = size.cut(value);
        visit(case);
    }
}

/// A random length of a buffer, around the limits.
pub fn any_length(random: &mut Random) -> usize {
    match random.up_to(63) {
        0 => random.among(&[65_535, 65_536, 65_537]),
        1 => random.near(65_536, 600),
        2..=31 => random.up_to(300),
        _ => random.up_to(12),
    }
}

/// A random case on a buffer of a given length, around the limits of the call.
pub fn any_case(call: Call, length: usize, random: &mut Random) -> Case {
    let mut case = Case::new(call);
    case.buffer = random.bytes(length);
    case.cursor = any_cursor(call, length, random);
    match call {
        Call::BitsRemaining => {}
        Call::ReadSlice => case.count = any_slice_length(length, case.cursor, random),
        Call::WriteSlice => {
            case.count = any_source_length(length, case.cursor, random);
            case.source = random.bytes(case.count);
        }
        _ => case.count = any_width(call.max() as usize, random),
    }
    if let Call::Write(size) = call {
        case.value = size.cut(random.of_any_length());
    }
    case
}

fn any_cursor(call: Call, length: usize, random: &mut Random) -> usize {
    let end = length * 8;
    let cursor = match random.up_to(15) {
        0 => random.near(usize::MAX, 80),
        1 => random.near(65_536 * 8, 80),
        2 => random.near(1 << 32, 80),
        3 => random.next() as usize,
        4..=7 => random.near(end, 80),
        8 => random.near(end, 9),
        _ => random.up_to(end),
    };
    // Half of the slice calls stand at a byte: otherwise hardly any is accepted.
    if matches!(call, Call::ReadSlice | Call::WriteSlice) && random.up_to(1) == 0 {
        return cursor / 8 * 8;
    }
    cursor
}

fn any_width(max: usize, random: &mut Random) -> usize {
    match random.up_to(15) {
        0 => 0,
        1 => random.near(256, 3),
        // As a `u8`, these would be widths that fit.
        2 => 256 * (1 + random.up_to(300)) + random.up_to(64),
        3 => random.next() as u32 as usize,
        4..=6 => {
            let limit = random.among(&[8, 16, 32, 64]);
            random.near(limit, 2)
        }
        7 => random.up_to(255),
        _ => random.up_to(max + 2),
    }
}

fn any_slice_length(length: usize, cursor: usize, random: &mut Random) -> usize {
    match random.up_to(9) {
        0 => random.near(usize::MAX, 10),
        // Where the end reaches the largest number.
        1 => random.near(usize::MAX - cursor / 8, 3),
        // Where a count of bits would wrap.
        2 => random.near(1 << 61, 10),
        3 => random.next() as usize,
        4..=6 => random.near(length.saturating_sub(cursor / 8), 2),
        _ => random.up_to(length + 3),
    }
}

fn any_source_length(length: usize, cursor: usize, random: &mut Random) -> usize {
    match random.up_to(255) {
        0 => random.near(65_536, 3),
        1..=127 => random.near(length.saturating_sub(cursor / 8), 2),
        _ => random.up_to(length.min(300) + 3),
    }
}
