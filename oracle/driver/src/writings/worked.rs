//! Values whose answer was worked out by hand.
use super::case::Case;
use super::records::records;
use crate::payload::lines::worked_bytes;
use crate::tables::built_in;
use crate::tables::words::pack;
use model::numbers::{Value, ValueKind};
use model::tables::{Field, Table};
use model::writing::Given;

pub struct Worked {
    pub case: Case,
    /// `ok USED` or `F NUMBER CARRIED...`.
    pub outcome: &'static str,
    /// The buffer after.
    pub buffer: Vec<u8>,
}

/// Values of a table into a buffer of so many bytes, without a lent text.
pub fn writes(
    size: usize,
    table: Table,
    values: &[Given],
    outcome: &'static str,
    buffer: &str,
) -> Worked {
    lends(size, table, values, "", outcome, buffer)
}

/// The same with a lent text.
pub fn lends(
    size: usize,
    table: Table,
    values: &[Given],
    text: &str,
    outcome: &'static str,
    buffer: &str,
) -> Worked {
    Worked {
        case: Case {
            size,
            words: pack(&table),
            values: records(values),
            text: worked_bytes(text),
        },
        outcome,
        buffer: worked_bytes(buffer),
    }
}

/// One value of a table of one field.
pub fn one(
    size: usize,
    field: Field,
    value: Given,
    text: &str,
    outcome: &'static str,
    buffer: &str,
) -> Worked {
    lends(size, of(&[field]), &[value], text, outcome, buffer)
}

/// A table without sets.
pub fn of(fields: &[Field]) -> Table {
    built_in::table(fields, &[])
}

/// A field after a number of 4 bits.
pub fn shifted(field: Field) -> Table {
    of(&[built_in::number(4), field])
}

/// A counter of 8 bits and a set of one field of 8.
pub fn counted(maximum: usize) -> Table {
    built_in::table(
        &[built_in::number(8), built_in::number(8)],
        &[built_in::set(1, 1, 0, maximum)],
    )
}

pub fn whole(kind: ValueKind, number: i128) -> Given {
    Given::Number(Value::whole(kind, number))
}

pub fn byte(number: u8) -> Given {
    whole(ValueKind::U8, number.into())
}

pub fn single(number: f32) -> Given {
    Given::Number(Value::single(number))
}

pub fn double(number: f64) -> Given {
    Given::Number(Value::double(number))
}

/// A text or bytes.
pub fn text(place: u64, length: u64) -> Given {
    Given::Bytes {
        place,
        length,
        encoding: None,
    }
}

/// A text with an encoding byte.
pub fn encoded(encoding: u8, place: u64, length: u64) -> Given {
    Given::Bytes {
        place,
        length,
        encoding: Some(encoding),
    }
}
