//! The cases that are compared: the payloads of a table, each with a padding run and room.
use super::answer;
use super::case::{AMPLE, Case};
use super::payloads::{any_bytes, damaged, made, sized};
use crate::random::Random;
use crate::tables::damaged::damage;
use crate::tables::words::pack;
use model::reading::PADDING;
use model::tables::{PAYLOAD_MAX, Table};

/// A payload of so many bytes is cut at each place, a longer one at so many.
const CUT_EVERYWHERE: usize = 12;

/// How often a payload is made for a table, and then cut, damaged and stretched.
const ROUNDS: usize = 2;

/// The longest payload and padding run that the program takes.
pub const LONGEST: usize = 300;

/// The cases of an accepted table.
pub fn cases_of(table: &Table, words: &[u64], random: &mut Random) -> Vec<Case> {
    let payloads = payloads(table, random);
    let mut case = |payload| {
        let padding = any_padding(random);
        let mut case = Case {
            room: AMPLE,
            padding,
            words: words.to_vec(),
            payload,
        };
        let count = answer::model(table, &case).0.readings.len();
        case.room = any_room(count as u64, random);
        case
    };
    payloads.into_iter().map(&mut case).collect()
}

fn payloads(table: &Table, random: &mut Random) -> Vec<Vec<u8>> {
    let mut all = Vec::new();
    for _ in 0..ROUNDS {
        let base = made(table, random);
        all.extend(cut(&base, random));
        for _ in 0..4 {
            all.push(damaged(&base, random));
        }
        for length in lengths(table, &base, random) {
            all.push(sized(&base, length, random));
        }
        all.push(base);
        all.push(made(table, random));
    }
    for most in [4, 20, PAYLOAD_MAX] {
        let length = random.up_to(most);
        all.push(any_bytes(length, random));
    }
    all
}

fn cut(payload: &[u8], random: &mut Random) -> Vec<Vec<u8>> {
    let most = payload.len();
    let places: Vec<usize> = if most <= CUT_EVERYWHERE {
        (0..most).collect()
    } else {
        let any = (0..CUT_EVERYWHERE - 1).map(|_| random.up_to(most - 1));
        any.chain([most - 1]).collect()
    };
    places.iter().map(|&at| payload[..at].to_vec()).collect()
}

/// Lengths at which rules turn, and some beyond the payload's own.
fn lengths(table: &Table, payload: &[u8], random: &mut Random) -> Vec<usize> {
    let mut all = vec![payload.len() + 1 + random.up_to(8)];
    all.push(random.among(&[0, PAYLOAD_MAX - 1, PAYLOAD_MAX, PAYLOAD_MAX + 1]));
    if random.up_to(7) == 0 {
        all.push(PAYLOAD_MAX + 1 + random.up_to(LONGEST - PAYLOAD_MAX - 1));
    }
    if let (Some(length), Some(minimum)) = (table.length, table.minimum) {
        all.extend([minimum - 1, minimum, length - 1, length, length + 1]);
    }
    all
}

/// Mostly the run that is wanted.
fn any_padding(random: &mut Random) -> usize {
    match random.up_to(31) {
        0 => random.among(&[0, PADDING - 1, PADDING + 1, LONGEST]),
        1 => random.up_to(LONGEST),
        _ => PADDING,
    }
}

/// Mostly enough for all readings; else just enough, one too few, none, or any.
pub fn any_room(count: u64, random: &mut Random) -> u64 {
    match random.up_to(15) {
        0 => count,
        1 => count.saturating_sub(1),
        2 => random.up_to(count as usize) as u64,
        3 => random.among(&[0, 1, count + 1]),
        4 => random.among(&[u64::MAX, u64::MAX - 1, 1 << 63, 1 << 32, u64::MAX >> 1]),
        _ => AMPLE,
    }
}

/// Cases of words that are mostly refused, with payloads of the table that they were.
pub fn refused_cases(table: &Table, random: &mut Random) -> Vec<Case> {
    let mut words = pack(table);
    damage(&mut words, random);
    let case = |payload, random: &mut Random| Case {
        room: any_room(1, random),
        padding: any_padding(random),
        words: words.clone(),
        payload,
    };
    if words.is_empty() {
        return Vec::new();
    }
    let base = made(table, random);
    let long = sized(&base, PAYLOAD_MAX + random.up_to(2), random);
    let other = damaged(&base, random);
    vec![case(base, random), case(other, random), case(long, random)]
}
