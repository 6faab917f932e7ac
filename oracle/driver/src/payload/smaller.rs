//! Cases made smaller: tables, words and bytes a step smaller.
use crate::tables::smallest::cleared;
use crate::tables::words::{KIND, QUARTERS, WIDTH, get, put};
use model::tables::{self, Table};

/// The steps that are taken at most to make a case smaller.
const STEPS: usize = 2000;

pub trait Smaller: Clone {
    fn is_smaller(&self, other: &Self) -> bool;
    /// Cases that a step leads to, some of which are smaller.
    fn steps(&self) -> Vec<Self>;

    /// A case that no single step makes smaller. `find` picks one of several that still shows what it is
    /// kept for.
    fn shrunk(&self, mut find: impl FnMut(&[Self]) -> Option<usize>) -> Self {
        let mut case = self.clone();
        for _ in 0..STEPS {
            let mut smaller = case.steps();
            smaller.retain(|step| step.is_smaller(&case));
            match find(&smaller) {
                Some(i) => case = smaller.swap_remove(i),
                None => break,
            }
        }
        case
    }
}

/// A head can claim more fields than there are words for. Fields are only taken out of fewer.
const FEW: usize = 2 * tables::FIELDS_MAX;

/// The table of words, if it has few fields and sets.
pub fn few_fields(words: &[u64]) -> Option<Table> {
    let table = tables::read(words);
    (table.fields.len().max(table.sets.len()) <= FEW).then_some(table)
}

/// The table with a field, a set or its lengths taken out; what says nothing in its words is gone too.
pub fn smaller_tables(table: Table) -> impl Iterator<Item = Table> {
    let (fields, sets) = (table.fields.len(), table.sets.len());
    let bare = Table {
        length: None,
        minimum: None,
        ..table.clone()
    };
    let without_field = {
        let table = table.clone();
        (0..fields).map(move |i| without_field(&table, i))
    };
    let without_set = (0..sets).map(move |k| {
        let mut table = table.clone();
        table.sets.remove(k);
        table
    });
    without_field.chain(without_set).chain([bare])
}

/// The sets go on meaning the same fields.
pub fn without_field(table: &Table, field: usize) -> Table {
    let mut table = table.clone();
    table.fields.remove(field);
    for set in &mut table.sets {
        if set.range().contains(&field) {
            set.size -= 1;
        }
        set.start -= usize::from(field < set.start);
        set.counter -= usize::from(field < set.counter);
    }
    table
}

pub fn shorter(payload: &[u8]) -> impl Iterator<Item = Vec<u8>> {
    let half = payload[..payload.len() / 2].to_vec();
    let without = (0..payload.len()).rev().map(|at| {
        let mut payload = payload.to_vec();
        payload.remove(at);
        payload
    });
    [half].into_iter().chain(without)
}

/// The words with a bit cleared, or with a kind, a width or a number of the head or of a set made less.
pub fn smaller_words(words: &[u64]) -> impl Iterator<Item = Vec<u64>> {
    let parts = [[KIND, WIDTH].as_slice(), QUARTERS.as_slice()].concat();
    let places = parts.into_iter();
    let places = places.flat_map(|part| (0..words.len()).map(move |at| (at, part)));
    let less = places.flat_map(|(at, part)| {
        let value = get(words[at], part);
        [0, value / 2, value.saturating_sub(1)].map(|value| {
            let mut words = words.to_vec();
            put(&mut words[at], part, value);
            words
        })
    });
    cleared(words).chain(less)
}

pub fn smaller_bytes(payload: &[u8]) -> impl Iterator<Item = Vec<u8>> {
    (0..payload.len()).flat_map(|at| {
        let byte = payload[at];
        [0, byte / 2, byte.saturating_sub(1)].map(|byte| {
            let mut payload = payload.to_vec();
            payload[at] = byte;
            payload
        })
    })
}
