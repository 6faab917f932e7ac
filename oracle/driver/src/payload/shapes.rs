//! How often the cases met what they have to meet.
use model::numbers::Kind;
use std::collections::BTreeMap;
use std::fmt::Debug;

pub struct Met<K>(BTreeMap<K, usize>);

impl<K> Default for Met<K> {
    fn default() -> Met<K> {
        Met(BTreeMap::new())
    }
}

impl<K: Ord + Debug> Met<K> {
    pub fn add(&mut self, what: K) {
        *self.0.entry(what).or_default() += 1;
    }

    /// How often each was met, or what was not.
    pub fn counts(&self, wanted: &[K]) -> Result<Vec<usize>, String> {
        let is_missed = |what: &&K| !self.0.contains_key(what);
        let missed: Vec<&K> = wanted.iter().filter(is_missed).collect();
        match missed.is_empty() {
            true => Ok(wanted.iter().map(|what| self.0[what]).collect()),
            false => Err(format!("not met: {missed:?}")),
        }
    }

    /// How many were met, or those that were not.
    pub fn outcome(&self, wanted: &[K], name: &str) -> Result<String, String> {
        let least = self.counts(wanted)?.into_iter().min().unwrap_or(0);
        let count = wanted.len();
        Ok(format!("{count} {name}, each {least} times or more"))
    }
}

/// What is met at a kind of field, and what has no kind.
pub type Shape = (Option<Kind>, &'static str);

/// The shapes that have to be met at each kind of field, and others.
pub fn shapes(of_kinds: &[(Kind, &[&'static str])], others: &[&'static str]) -> Vec<Shape> {
    let of_kind =
        |(kind, shapes): &(Kind, &[_])| shapes.iter().map(|&what| (Some(*kind), what)).collect();
    let of_kinds = of_kinds.iter().flat_map::<Vec<Shape>, _>(of_kind);
    of_kinds
        .chain(others.iter().map(|&what| (None, what)))
        .collect()
}
