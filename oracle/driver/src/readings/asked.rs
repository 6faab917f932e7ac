//! The oracles made ready for a table.
use super::case::Case;
use super::oracles::{rust, standin};
use super::told::Told;
use model::tables::{self, Field, PAYLOAD_MAX, SETS_MAX, Table};

/// A refused table is asked of the Rust only if it is as small as this, as each that is asked stays in
/// memory.
const SMALL: usize = 8;

pub struct Asked {
    pub table: Table,
    pub is_accepted: bool,
    standin: Option<standin::Asked>,
    rust: Option<rust::Asked>,
}

impl Asked {
    pub fn new(words: &[u64]) -> Asked {
        let table = tables::read(words);
        let is_accepted = tables::check(&table).is_ok();
        let is_small = table.fields.len() <= SMALL && table.sets.len() <= SETS_MAX;
        let has_standin = is_accepted && marks_are_told_apart(&table);
        Asked {
            is_accepted,
            standin: has_standin.then(|| standin::Asked::new(&table)),
            rust: (is_accepted || is_small).then(|| rust::Asked::new(&table)),
            table,
        }
    }

    /// The Rust's answer. What it makes of a long payload is asked of accepted tables only: others could
    /// lead it past its own buffers.
    pub fn rust(&self, case: &Case) -> Option<Told> {
        let speaks = self.is_accepted || case.payload.len() <= PAYLOAD_MAX;
        let rust = self.rust.as_ref().filter(|_| speaks)?;
        Some(rust.read(&case.payload, case.room))
    }

    /// The answer of the oracle with stand-ins.
    pub fn standin(&self, case: &Case) -> Option<Told> {
        let standin = self.standin.as_ref()?;
        Some(standin.read(&case.payload, case.room))
    }
}

/// The second oracle knows a mark by the width, the sign and the resolution of its field: fields that
/// share these have to share the mark.
fn marks_are_told_apart(table: &Table) -> bool {
    let scaled = |field: &Field| {
        let scale = field.scale?;
        Some((
            (field.width, field.signed, scale.resolution.to_bits()),
            scale.mark,
        ))
    };
    let marks: Vec<_> = table.fields.iter().filter_map(scaled).collect();
    let mut pairs = (marks.iter()).flat_map(|one| marks.iter().map(move |other| (one, other)));
    pairs.all(|(one, other)| one.0 != other.0 || one.1 == other.1)
}
