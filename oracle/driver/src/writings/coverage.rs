//! Which shapes of writing the cases reached, by the model's answers.
use super::kinds::is_bytes;
use super::records::{self, RECORD};
use super::sides::Answers;
use crate::payload::shapes::{Met, Shape, shapes};
use model::Refusal;
use model::numbers::{self, Kind};
use model::tables::{Field, PAYLOAD_MAX, Table};
use model::writing::{Content, Encoded, Fault, Given, TEXT_MAX, Written};

const NUMBERS: [&str; 5] = ["written", "F 2", "F 10", "F 11", "F 12"];
const SKIPPED: [&str; 2] = ["written", "F 2"];

/// What has to be met at each kind of field.
const OF_KINDS: [(Kind, &[&str]); 17] = [
    (Kind::BitLookup, &NUMBERS),
    (Kind::Number, &NUMBERS),
    (Kind::Lookup, &NUMBERS),
    (Kind::IndirectLookup, &NUMBERS),
    (Kind::Pgn, &NUMBERS),
    (Kind::IsoName, &NUMBERS),
    (Kind::Date, &NUMBERS),
    (Kind::Mmsi, &NUMBERS),
    (Kind::Duration, &NUMBERS),
    (Kind::Time, &NUMBERS),
    (Kind::Float, &["written", "F 2", "F 11", "F 12"]),
    (Kind::Reserved, &SKIPPED),
    (Kind::Spare, &SKIPPED),
    (
        Kind::Binary,
        &[
            "written", "bytes", "F 2", "F 3", "F 10", "F 11", "F 12", "F 13",
        ],
    ),
    (
        Kind::StringFix,
        &[
            "whole", "filled", "empty", "F 2", "F 3", "F 11", "F 12", "F 13",
        ],
    ),
    (
        Kind::StringLz,
        &[
            "text",
            "empty",
            "empty and unaligned",
            "of 221 bytes",
            "F 2",
            "F 3",
            "F 11",
            "F 12",
            "F 13",
        ],
    ),
    (
        Kind::StringLau,
        &[
            "text",
            "empty",
            "empty and unaligned",
            "absent",
            "absent and unaligned",
            "of 221 bytes",
            "F 2",
            "F 3",
            "F 11",
            "F 12",
            "F 13",
        ],
    ),
];

/// What else has to be met.
const OTHERS: [&str; 20] = [
    "an element",
    "a field behind a set",
    "as many elements as there may be",
    "a counter of all ones",
    "two sets of one counter",
    "F 5",
    "F 7",
    "F 8",
    "values left over",
    "a fault in an element",
    "a fault behind a field that is written",
    "a record of no kind",
    "a record cut short",
    "an encoding byte on another kind",
    "text without an encoding byte",
    "a text over 221 bytes",
    "bytes past the lent text",
    "no bytes past the lent text",
    "a place and a length past 2^64",
    "no value and a skipped field",
];

#[derive(Default)]
pub struct Coverage {
    met: Met<Shape>,
    /// What became of buffers of so many bytes.
    sizes: Met<(&'static str, usize)>,
}

impl Coverage {
    pub fn add(&mut self, answers: &Answers) {
        let (table, encoded) = (&answers.asked.table, &answers.encoded);
        for written in &encoded.written {
            self.add_written(&table.fields[written.field], written);
        }
        match encoded.outcome {
            Ok(()) => {
                self.sizes.add(("written", answers.case.size));
                if answers.case.values.is_empty() {
                    self.met(None, "no value and a skipped field");
                }
            }
            Err(fault) => self.add_fault(answers, fault),
        }
        self.add_sets(table, encoded);
    }

    fn met(&mut self, kind: Option<Kind>, what: &'static str) {
        self.met.add((kind, what));
    }

    fn add_written(&mut self, field: &Field, written: &Written) {
        let is_unaligned = !written.start.is_multiple_of(8);
        let what = match &written.content {
            Content::Skipped | Content::Number { .. } => "written",
            Content::Bytes { bytes, encoding } => match (field.kind, bytes.len()) {
                (Kind::Binary, _) => "bytes",
                (Kind::StringFix, _) => fixed(bytes),
                (Kind::StringLau, 0) if encoding.is_none() => match is_unaligned {
                    true => "absent and unaligned",
                    false => "absent",
                },
                (_, 0) if is_unaligned => "empty and unaligned",
                (_, 0) => "empty",
                (_, length) if length as u64 == TEXT_MAX => "of 221 bytes",
                _ => "text",
            },
        };
        self.met(Some(field.kind), what);
        if written.element.is_some() {
            self.met(None, "an element");
        }
    }

    fn add_fault(&mut self, answers: &Answers, fault: Fault) {
        let (field, what) = match fault {
            Fault::Bits { field, refusal } => match refusal {
                Refusal::BeyondBits { .. } => {
                    self.sizes.add(("too small", answers.case.size));
                    (field, "F 2")
                }
                _ => (field, "F 3"),
            },
            Fault::OutOfRange { field } => (field, "F 10"),
            Fault::OtherKind { field } => (field, "F 11"),
            Fault::TooLong { field } => (field, "F 13"),
            Fault::Values(field) if field < answers.asked.table.fields.len() => (field, "F 12"),
            Fault::Values(_) => return self.met(None, "values left over"),
            Fault::Elements { .. } => return self.met(None, "F 5"),
            Fault::Length(_) => return self.met(None, "F 7"),
            Fault::Table(_) => return self.met(None, "F 8"),
        };
        let table = &answers.asked.table;
        self.met(Some(table.fields[field].kind), what);
        if table.in_a_set(field) {
            self.met(None, "a fault in an element");
        }
        if !answers.encoded.written.is_empty() {
            self.met(None, "a fault behind a field that is written");
        }
        self.add_value(answers, &table.fields[field], fault);
    }

    /// The value at which the walk stopped.
    fn add_value(&mut self, answers: &Answers, field: &Field, fault: Fault) {
        let written = answers.encoded.written.iter();
        let used = written
            .filter(|one| one.content != Content::Skipped)
            .count();
        let Some(bytes) = answers.case.values.chunks(RECORD).nth(used) else {
            return;
        };
        match (fault, records::given(bytes)) {
            (Fault::OtherKind { .. }, Given::Nothing) if bytes.len() < RECORD => {
                self.met(None, "a record cut short");
            }
            (Fault::OtherKind { .. }, Given::Nothing) => self.met(None, "a record of no kind"),
            (Fault::OtherKind { .. }, Given::Bytes { encoding, .. }) if is_bytes(field) => {
                let what = match encoding {
                    Some(_) => "an encoding byte on another kind",
                    None => "text without an encoding byte",
                };
                self.met(None, what);
            }
            (Fault::TooLong { .. }, Given::Bytes { place, length, .. }) => {
                let lent = answers.case.text.len() as u64;
                let what = match place.checked_add(length) {
                    None => "a place and a length past 2^64",
                    Some(end) if end > lent && length == 0 => "no bytes past the lent text",
                    Some(end) if end > lent => "bytes past the lent text",
                    _ if field.width.is_none() => "a text over 221 bytes",
                    _ => return,
                };
                self.met(None, what);
            }
            _ => {}
        }
    }

    /// The sets whose walk is over, by their counters' raws and their elements.
    fn add_sets(&mut self, table: &Table, encoded: &Encoded) {
        let mut counters = Vec::new();
        for set in &table.sets {
            let of = |field: usize| encoded.written.iter().filter(move |one| one.field == field);
            let counter = of(set.counter).next().map(|one| &one.content);
            let Some(&Content::Number { raw }) = counter else {
                continue;
            };
            let width = table.fields[set.counter].width.unwrap_or(0);
            let count = numbers::elements(width, raw);
            if count == 0 && raw > 0 {
                self.met(None, "a counter of all ones");
            }
            let last = of(set.start + set.size - 1).count();
            if last == set.maximum {
                self.met(None, "as many elements as there may be");
            }
            if last > 0 && counters.contains(&set.counter) {
                self.met(None, "two sets of one counter");
            }
            if last > 0 && of(set.start + set.size).count() > 0 {
                self.met(None, "a field behind a set");
            }
            counters.push(set.counter);
        }
    }

    /// How many shapes were met, or those that were not.
    pub fn outcome(&self) -> Result<String, String> {
        self.met.outcome(&shapes(&OF_KINDS, &OTHERS), "shapes")
    }

    /// Whether buffers of every size were written, but for one of no bytes, and found too small.
    pub fn sizes(&self) -> Result<String, String> {
        let accepted = (1..=PAYLOAD_MAX).map(|size| ("written", size));
        let cut = (0..PAYLOAD_MAX).map(|size| ("too small", size));
        let wanted: Vec<_> = accepted.chain(cut).collect();
        let least = self.sizes.counts(&wanted)?.into_iter().min().unwrap_or(0);
        Ok(format!(
            "1 to 223 bytes written, 0 to 222 too small, each {least} times or more"
        ))
    }
}

/// A StringFix by the fill at its end: a text may end in the same bytes.
fn fixed(bytes: &[u8]) -> &'static str {
    match bytes.iter().rposition(|&byte| byte != 0xFF) {
        None => "empty",
        Some(last) if last + 1 == bytes.len() => "whole",
        Some(_) => "filled",
    }
}
