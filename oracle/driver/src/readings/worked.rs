//! A payload whose answer was worked out by hand.
use super::case::Case;
use crate::payload::lines::worked_bytes;
use crate::tables::built_in::table;
use crate::tables::words::pack;
use model::tables::{Field, Table};

pub struct Worked {
    pub case: Case,
    /// The lines of the answer.
    pub wanted: String,
}

/// A payload of one field.
pub fn one(field: Field, payload: &str, wanted: &[&str]) -> Worked {
    reads(table(&[field], &[]), payload, wanted)
}

/// A payload with the usual padding run and ample room.
pub fn reads(table: Table, payload: &str, wanted: &[&str]) -> Worked {
    by_words(&pack(&table), payload, wanted)
}

pub fn with(room: u64, padding: usize, table: Table, payload: &str, wanted: &[&str]) -> Worked {
    let mut worked = reads(table, payload, wanted);
    (worked.case.room, worked.case.padding) = (room, padding);
    worked
}

/// By words, also those that no table packs to.
pub fn by_words(words: &[u64], payload: &str, wanted: &[&str]) -> Worked {
    Worked {
        case: Case::usual(words.to_vec(), worked_bytes(payload)),
        wanted: wanted.iter().map(|line| format!("{line}\n")).collect(),
    }
}
