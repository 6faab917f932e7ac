//! What was met where demand 3 is checked.
use crate::numbers::cases::KINDS;
use crate::payload::shapes;
use model::numbers::Kind;

/// What else has to be met where bits are changed.
const CHANGED: [&str; 11] = [
    "filled payloads",
    "fields in sets",
    "fields beside skipped ones",
    "fields before texts",
    "fields before sets",
    "fields in two bytes or more, not aligned",
    "made available",
    "made not available",
    "counters left alone",
    "numbers in filled bytes left alone",
    "texts left alone",
];

/// What has to be met where spans are laid.
const COVERED: [&str; 8] = [
    "readings",
    "readings in sets",
    "readings of no bits",
    "fields skipped",
    "fields skipped in sets",
    "sets of skipped fields only",
    "filled payloads covered",
    "payloads without a reading",
];

#[derive(Default)]
pub struct Met {
    kinds: shapes::Met<Kind>,
    others: shapes::Met<&'static str>,
}

impl Met {
    pub fn add(&mut self, what: &'static str) {
        self.others.add(what);
    }

    pub fn add_kind(&mut self, kind: Kind) {
        self.kinds.add(kind);
    }

    /// How often each was met, or what was not.
    pub fn covered(&self) -> Result<String, String> {
        self.named(&COVERED)
    }

    /// The same for what was changed.
    pub fn changed(&self) -> Result<String, String> {
        let kinds = self.kinds.outcome(&KINDS, "kinds")?;
        Ok(format!("{kinds}; {}", self.named(&CHANGED)?))
    }

    fn named(&self, wanted: &[&'static str]) -> Result<String, String> {
        let counts = self.others.counts(wanted)?;
        let counts = wanted.iter().zip(counts);
        let counts = counts.map(|(what, count)| format!("{what}: {count}"));
        Ok(counts.collect::<Vec<String>>().join(", "))
    }
}
