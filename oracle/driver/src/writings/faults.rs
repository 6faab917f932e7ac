//! Faults put into values that a table asks for, each at a place of its own.
use super::kinds::is_bytes;
use super::made::{Made, any_counter};
use super::records::{RECORD, Record, record};
use super::values::{any_beyond, any_number};
use crate::payload::described::number_field;
use crate::random::Random;
use model::tables::{Field, Table};
use model::writing::{Given, TEXT_MAX};

/// What is done to the value at a place, or to all from there on.
#[derive(Clone, Copy, Debug, PartialEq, Eq)]
pub enum Fault {
    /// Values end before it.
    Missing,
    /// One more stands before it.
    PutIn,
    /// It is taken out.
    TakenOut,
    /// A number for bytes, bytes for a number, or a number of another kind.
    OtherKind,
    /// A record of a kind that there is not, or a number that is not one of its kind.
    NoKind,
    /// A number out of the field's range.
    Beyond,
    /// Bytes of another length.
    OtherLength,
    /// Bytes past the lent text.
    Past,
    /// An encoding byte that is put on or taken off.
    Encoding,
    /// A counter that says another number.
    Count,
    /// The record is cut short.
    CutShort,
    /// A record of any bytes.
    AnyBytes,
    /// One byte of the record is changed.
    ByteChanged,
}

impl Fault {
    pub const ALL: [Fault; 13] = [
        Fault::Missing,
        Fault::PutIn,
        Fault::TakenOut,
        Fault::OtherKind,
        Fault::NoKind,
        Fault::Beyond,
        Fault::OtherLength,
        Fault::Past,
        Fault::Encoding,
        Fault::Count,
        Fault::CutShort,
        Fault::AnyBytes,
        Fault::ByteChanged,
    ];
}

/// The records with a fault at a place, which may be behind the last. Some turn out to be none.
pub fn faulty(
    fault: Fault,
    table: &Table,
    made: &Made,
    place: usize,
    random: &mut Random,
) -> Vec<u8> {
    let mut all: Vec<Record> = made.values.iter().map(|&value| record(value)).collect();
    match fault {
        Fault::Missing => all.truncate(place),
        Fault::PutIn => all.insert(place, any_record(random)),
        Fault::TakenOut if place < all.len() => {
            all.remove(place);
        }
        Fault::CutShort => {
            let bytes = all.as_flattened();
            let end = RECORD * place + random.up_to(RECORD - 1);
            return bytes[..end.min(bytes.len())].to_vec();
        }
        _ => {
            if let Some(new) = replaced(fault, table, made, place, random) {
                all[place] = new;
            }
        }
    }
    all.into_flattened()
}

/// The record that a fault leaves at a place, if there is one.
fn replaced(
    fault: Fault,
    table: &Table,
    made: &Made,
    place: usize,
    random: &mut Random,
) -> Option<Record> {
    let number = *made.fields.get(place)?;
    let (old, text) = (made.values[place], made.text.len() as u64);
    if fault == Fault::Count {
        let is_counter = table.sets.iter().any(|set| set.counter == number);
        return is_counter.then(|| recounted(old, any_counter(table, number, random)));
    }
    changed(fault, &table.fields[number], old, text, random)
}

/// The same counter with another number, of the same kind where that holds it.
fn recounted(old: Given, raw: u64) -> Record {
    match old {
        Given::Number(value) => record(Given::Number(model::numbers::Value { bits: raw, ..value })),
        other => record(other),
    }
}

fn changed(
    fault: Fault,
    field: &Field,
    old: Given,
    text: u64,
    random: &mut Random,
) -> Option<Record> {
    let new = match (fault, old) {
        (Fault::OtherKind, _) => other_kind(field, random),
        (Fault::NoKind, _) => return Some(any_of_no_kind(random)),
        (Fault::Beyond, Given::Number(_)) => {
            Given::Number(any_beyond(&number_field(field), random)?)
        }
        (Fault::AnyBytes, _) => return Some(any_record(random)),
        (Fault::ByteChanged, _) => {
            let mut bytes = record(old);
            bytes[random.up_to(RECORD - 1)] = random.next() as u8;
            return Some(bytes);
        }
        (
            _,
            Given::Bytes {
                place,
                length,
                encoding,
            },
        ) => changed_bytes(fault, field, (place, length, encoding), text, random)?,
        _ => return None,
    };
    Some(record(new))
}

/// Bytes of another length, past the lent text, or with an encoding byte put on or taken off.
fn changed_bytes(
    fault: Fault,
    field: &Field,
    (place, length, encoding): (u64, u64, Option<u8>),
    text: u64,
    random: &mut Random,
) -> Option<Given> {
    let (place, length, encoding) = match fault {
        Fault::OtherLength => (place, any_length(field, random), encoding),
        Fault::Past => {
            let (place, length) = any_past(length, text, random);
            (place, length, encoding)
        }
        Fault::Encoding if encoding.is_some() => (place, length, None),
        Fault::Encoding => (place, length, Some(random.next() as u8)),
        _ => return None,
    };
    Some(Given::Bytes {
        place,
        length,
        encoding,
    })
}

fn other_kind(field: &Field, random: &mut Random) -> Given {
    let bytes = Given::Bytes {
        place: 0,
        length: random.up_to(3) as u64,
        encoding: None,
    };
    let number = Given::Number(any_number(random));
    match is_bytes(field) {
        true => number,
        false => random.among(&[number, bytes]),
    }
}

/// Kinds that there are not, and numbers that are not of theirs: a kind's number and its 64 bits.
const OF_NO_KIND: [(u8, u64); 20] = [
    (0, 0),
    (12, 0),
    (13, 1),
    (128, 1),
    (255, 1),
    (2, 1 << 32),
    (2, u64::MAX),
    (3, 1 << 16),
    (4, 1 << 8),
    (4, 300),
    (6, 1 << 31),
    (6, !(1 << 31)),
    (7, 1 << 15),
    (7, 40_000),
    (7, 0xFFFF),
    (8, 1 << 7),
    (8, 0xFF),
    (8, !(1 << 7)),
    (10, 1 << 32),
    (10, 1 << 63),
];

fn any_of_no_kind(random: &mut Random) -> Record {
    let (kind, bits) = random.among(&OF_NO_KIND);
    let mut bytes = any_record(random);
    bytes[0] = kind;
    bytes[8..16].copy_from_slice(&bits.to_le_bytes());
    bytes
}

/// Any bytes, mostly with a kind that there is.
pub fn any_record(random: &mut Random) -> Record {
    let mut bytes: Record = random.bytes(RECORD).try_into().expect("a record");
    if random.up_to(3) > 0 {
        bytes[0] = random.up_to(12) as u8;
        let (number, length) = (random.of_any_length(), random.up_to(300) as u64);
        bytes[8..16].copy_from_slice(&number.to_le_bytes());
        bytes[16..].copy_from_slice(&length.to_le_bytes());
    }
    bytes
}

/// Lengths at which rules turn: the field's own and the longest texts.
fn any_length(field: &Field, random: &mut Random) -> u64 {
    let size = u64::from(field.width.unwrap_or(0) / 8);
    let any = random.of_any_length();
    let chosen = [
        0,
        1,
        size.saturating_sub(1),
        size,
        size + 1,
        TEXT_MAX - 1,
        TEXT_MAX,
        TEXT_MAX + 1,
        223,
        224,
        229,
        230,
        231,
        254,
        255,
        256,
        1 << 32,
        1 << 61,
        u64::MAX,
        any,
    ];
    random.among(&chosen)
}

/// A place and a length past a text of so many bytes: by one, far, or with a sum past 2^64.
fn any_past(length: u64, text: u64, random: &mut Random) -> (u64, u64) {
    match random.up_to(4) {
        0 => ((text + 1).saturating_sub(length), length),
        1 => (text + 1, 0),
        2 => (u64::MAX - length.saturating_sub(1), length),
        3 => (u64::MAX, random.among(&[0, 1, length, u64::MAX])),
        _ => (random.of_any_length(), length),
    }
}
