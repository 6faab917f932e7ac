//! The oracles made ready for a table.
use super::oracles::{rust, standin};
use model::tables::{self, Table};

/// A refused table is asked of the Rust only if it has no more fields than this, and no set, as each that
/// is asked stays in memory.
const SMALL: usize = 8;

pub struct Asked {
    pub table: Table,
    pub is_accepted: bool,
    pub standin: Option<standin::Asked>,
    pub rust: Option<rust::Asked>,
}

impl Asked {
    pub fn new(words: &[u64]) -> Asked {
        let table = tables::read(words);
        let is_accepted = tables::check(&table).is_ok();
        let is_small = table.fields.len() <= SMALL && table.sets.is_empty();
        Asked {
            is_accepted,
            standin: is_accepted.then(|| standin::Asked::new(&table)),
            rust: (is_accepted || is_small).then(|| rust::Asked::new(&table)),
            table,
        }
    }
}
