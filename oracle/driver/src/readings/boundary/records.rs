//! Readings as the library lays them into memory.
use crate::numbers::value_kinds::{value_code, value_kind};
use model::numbers::{Value, ValueKind};
use model::reading::{Content, Reading};

/// The bytes of the count of readings, which come first, and of a record.
pub const COUNT: usize = 8;
pub const RECORD: usize = 64;

/// The element of a reading that is in no set.
const NO_ELEMENT: u64 = u64::MAX;

/// What stands in the bytes of a record's tag.
const NOT_AVAILABLE: u64 = 1;
const BYTES: u64 = 11;
const HAS_RAW: u64 = 1 << 16;
const HAS_ENCODING: u64 = 1 << 24;

/// The eight numbers of a reading.
pub fn record(reading: &Reading) -> [u64; 8] {
    let (tag, raw, value, length) = match reading.content {
        Content::Number { raw, value } => {
            let kind = u64::from(value_code(value.kind));
            (kind << 8 | HAS_RAW, raw, value.bits, 0)
        }
        Content::Bytes {
            place,
            length,
            encoding,
        } => {
            let encoding = encoding.map_or(0, |byte| HAS_ENCODING | u64::from(byte) << 32);
            (BYTES << 8 | encoding, 0, place as u64, length as u64)
        }
    };
    let state = if reading.available { 0 } else { NOT_AVAILABLE };
    [
        reading.field as u64,
        reading.element.map_or(NO_ELEMENT, |element| element as u64),
        reading.start as u64,
        reading.bits as u64,
        tag | state,
        raw,
        value,
        length,
    ]
}

/// The numbers of a record.
pub fn numbers(record: &[u8; RECORD]) -> [u64; 8] {
    let (words, _) = record.as_chunks::<8>();
    std::array::from_fn(|i| u64::from_le_bytes(words[i]))
}

/// The reading that a record is, if it is of the form.
pub fn reading(record: [u64; 8]) -> Option<Reading> {
    let [field, element, start, bits, tag, raw, value, length] = record;
    let [state, kind, has_raw, has_encoding, encoding, rest @ ..] = tag.to_le_bytes();
    let content = match (u64::from(kind), has_raw) {
        (BYTES, 0) if raw == 0 => Content::Bytes {
            place: value as usize,
            length: length as usize,
            encoding: flagged(has_encoding, encoding)?,
        },
        (kind, 1) if [length, has_encoding.into(), encoding.into()] == [0; 3] => Content::Number {
            raw,
            value: Value {
                kind: value_kind(kind).filter(|&kind| kind != ValueKind::Bytes)?,
                bits: value,
            },
        },
        _ => return None,
    };
    let is_whole = state <= 1 && rest == [0; 3];
    is_whole.then_some(Reading {
        field: field as usize,
        element: (element != NO_ELEMENT).then_some(element as usize),
        start: start as usize,
        bits: bits as usize,
        content,
        available: state == 0,
    })
}

/// A byte behind its flag. One that is not there has to be 0.
fn flagged(flag: u8, byte: u8) -> Option<Option<u8>> {
    match (flag, byte) {
        (0, 0) => Some(None),
        (1, byte) => Some(Some(byte)),
        _ => None,
    }
}
