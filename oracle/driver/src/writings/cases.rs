//! The cases that are compared: values of a table, right and wrong, with buffers of every size.
use super::case::Case;
use super::faults::{Fault, any_record, faulty};
use super::made::{Made, made};
use super::records::{RECORD, record, records};
use crate::random::Random;
use crate::tables::damaged::damage;
use crate::tables::words::pack;
use model::tables::{PAYLOAD_MAX, Table};
use model::writing::Given;

/// A buffer of up to so many bytes is cut at each place, a longer one at so many.
const CUT_EVERYWHERE: usize = 8;

/// Faults at any places of a table's values, where not every one is put at each.
const FAULTS: usize = 16;

/// Values of up to so many may have every fault at each place.
const FEW: usize = 5;

/// The longest buffer.
pub const LONGEST: usize = 300;

/// A lent text in which every length is found that a text may and may not have.
const LONG_TEXT: usize = 260;

/// The cases of an accepted table.
pub fn cases_of(table: &Table, words: &[u64], random: &mut Random) -> Vec<Case> {
    let made = made(table, random);
    let case = |values: Vec<u8>, text: Vec<u8>, size: usize, random: &mut Random| {
        let mut values = values;
        if random.up_to(1) == 0 {
            fill_unseen(&mut values, random);
        }
        Case {
            size,
            words: words.to_vec(),
            values,
            text,
        }
    };
    let mut all = Vec::new();
    for size in sizes(made.needed, random) {
        all.push(case(records(&made.values), made.text.clone(), size, random));
    }
    for (fault, place) in faults(&made, random) {
        let values = faulty(fault, table, &made, place, random);
        let mut text = made.text.clone();
        if fault == Fault::OtherLength && text.len() < LONG_TEXT && random.up_to(1) == 0 {
            text.extend(random.bytes(LONG_TEXT - made.text.len()));
        }
        let size = any_size(made.needed, random);
        all.push(case(values, text, size, random));
    }
    all.push(any_values(words, made, random));
    all
}

/// Sizes at which rules turn, from none to too long.
fn sizes(needed: usize, random: &mut Random) -> Vec<usize> {
    let needed = needed.min(PAYLOAD_MAX);
    let mut all: Vec<usize> = if needed <= CUT_EVERYWHERE {
        (0..needed).collect()
    } else {
        let any = (0..CUT_EVERYWHERE - 1).map(|_| random.up_to(needed - 1));
        any.chain([needed - 1]).collect()
    };
    all.extend([needed, needed, PAYLOAD_MAX, random.up_to(PAYLOAD_MAX)]);
    all.push((needed + 1 + random.up_to(8)).min(PAYLOAD_MAX));
    if random.up_to(3) == 0 {
        let any = PAYLOAD_MAX + 1 + random.up_to(LONGEST - PAYLOAD_MAX - 1);
        all.push(random.among(&[PAYLOAD_MAX + 1, LONGEST, any]));
    }
    all
}

/// Mostly enough.
fn any_size(needed: usize, random: &mut Random) -> usize {
    match random.up_to(7) {
        0 => random.up_to(PAYLOAD_MAX),
        1 => needed.saturating_sub(1).min(PAYLOAD_MAX),
        2 | 3 => needed.min(PAYLOAD_MAX),
        4 if random.up_to(3) == 0 => random.among(&[PAYLOAD_MAX + 1, LONGEST]),
        _ => PAYLOAD_MAX,
    }
}

/// Every fault at each place, or some.
fn faults(made: &Made, random: &mut Random) -> Vec<(Fault, usize)> {
    let count = made.values.len();
    if count <= FEW && random.up_to(2) == 0 {
        let places = (0..=count).flat_map(|place| Fault::ALL.map(|fault| (fault, place)));
        return places.collect();
    }
    let any = |_| (random.among(&Fault::ALL), random.up_to(count));
    (0..FAULTS).map(any).collect()
}

/// Values of any bytes, whole records or not.
fn any_values(words: &[u64], made: Made, random: &mut Random) -> Case {
    let count = random.up_to(made.values.len() + 1);
    let mut values: Vec<u8> = (0..count).flat_map(|_| any_record(random)).collect();
    if random.up_to(3) == 0 {
        let more = random.up_to(RECORD - 1);
        values.extend(random.bytes(more));
    }
    Case {
        size: any_size(made.needed, random),
        words: words.to_vec(),
        values,
        text: made.text,
    }
}

/// Fills what is not looked at in records of values: a number's flag, encoding and length, the encoding
/// byte of bytes without one, and the reserved bytes. Any flag but 0 says the same.
fn fill_unseen(values: &mut [u8], random: &mut Random) {
    let (records, _) = values.as_chunks_mut::<RECORD>();
    for bytes in records {
        let value = super::records::given(bytes);
        if record(value) != *bytes {
            continue;
        }
        let any = random.bytes(RECORD);
        bytes[3..8].copy_from_slice(&any[3..8]);
        match value {
            Given::Number(_) => {
                bytes[1..3].copy_from_slice(&any[1..3]);
                bytes[16..].copy_from_slice(&any[16..]);
            }
            Given::Bytes { encoding: None, .. } => bytes[2] = any[2],
            Given::Bytes { .. } => bytes[1] = any[1].max(1),
            Given::Nothing => {}
        }
    }
}

/// Cases of words that are mostly refused, with values of the table that they were.
pub fn refused_cases(table: &Table, random: &mut Random) -> Vec<Case> {
    let mut words = pack(table);
    damage(&mut words, random);
    let made = made(table, random);
    let values = records(&made.values);
    let long = PAYLOAD_MAX + random.up_to(2);
    let sizes = [
        made.needed.min(PAYLOAD_MAX),
        random.up_to(PAYLOAD_MAX),
        long,
    ];
    let case = |size: usize| Case {
        size,
        words: words.clone(),
        values: values.clone(),
        text: made.text.clone(),
    };
    sizes.map(case).into()
}
