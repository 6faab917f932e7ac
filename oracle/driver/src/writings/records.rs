//! Values as the library takes them: records of 24 bytes, low byte first.
use crate::case::hex;
use crate::numbers::value_kinds::{is_of, value_code, value_kind};
use model::numbers::{Value, ValueKind};
use model::writing::Given;

/// The bytes of a record.
pub const RECORD: usize = 24;

/// Where its parts start.
const FLAG: usize = 1;
const ENCODING: usize = 2;
const NUMBER: usize = 8;
const LENGTH: usize = 16;

pub type Record = [u8; RECORD];

/// The record of a value, with zeros where nothing is looked at. What is no value has a kind that there
/// is not.
pub fn record(value: Given) -> Record {
    let mut record = [0; RECORD];
    let (kind, number, length) = match value {
        Given::Number(value) => (value_code(value.kind), value.bits, 0),
        Given::Bytes {
            place,
            length,
            encoding,
        } => {
            record[FLAG] = encoding.is_some().into();
            record[ENCODING] = encoding.unwrap_or(0);
            (value_code(ValueKind::Bytes), place, length)
        }
        Given::Nothing => (0, 0, 0),
    };
    record[0] = kind as u8;
    record[NUMBER..LENGTH].copy_from_slice(&number.to_le_bytes());
    record[LENGTH..].copy_from_slice(&length.to_le_bytes());
    record
}

/// The records of values, one after another.
pub fn records(values: &[Given]) -> Vec<u8> {
    values.iter().flat_map(|&value| record(value)).collect()
}

/// The value that a record is. One that is cut short is none.
pub fn given(record: &[u8]) -> Given {
    let Ok(record) = Record::try_from(record) else {
        return Given::Nothing;
    };
    let word = |at: usize| u64::from_le_bytes(record[at..at + 8].try_into().expect("8 bytes"));
    let bits = word(NUMBER);
    match value_kind(record[0].into()) {
        Some(ValueKind::Bytes) => Given::Bytes {
            place: bits,
            length: word(LENGTH),
            encoding: (record[FLAG] != 0).then_some(record[ENCODING]),
        },
        Some(kind) if is_of(kind, bits) => Given::Number(Value { kind, bits }),
        _ => Given::Nothing,
    }
}

/// The values that bytes are. What is left at their end counts for one.
pub fn all_given(bytes: &[u8]) -> Vec<Given> {
    bytes.chunks(RECORD).map(given).collect()
}

/// `KIND:NUMBER` in hexadecimal or `Bytes:PLACE:LENGTH:ENCODING`; of a record that says more or less, its
/// bytes.
pub fn text(bytes: &[u8]) -> String {
    match given(bytes) {
        value if record(value) != bytes => format!("x{}", hex(bytes)),
        Given::Number(value) => format!("{:?}:{:X}", value.kind, value.bits),
        Given::Bytes {
            place,
            length,
            encoding,
        } => {
            let encoding = encoding.map_or("-".to_string(), |byte| format!("{byte:02X}"));
            format!("Bytes:{place}:{length}:{encoding}")
        }
        Given::Nothing => "none".to_string(),
    }
}
