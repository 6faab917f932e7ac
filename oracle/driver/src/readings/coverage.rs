//! Which shapes of reading the cases reached, by the model's answers.
use super::case::Case;
use super::sides::Answers;
use super::told::working;
use crate::payload::shapes::{Met, Shape, shapes};
use model::numbers::{self, Kind};
use model::reading::{Content, Fault, Reading, filled_length};

const NUMBERS: [&str; 4] = ["A", "N", "F 4", "F 9"];
const OTHER_NUMBERS: [&str; 4] = ["A", "N", "F 2", "F 9"];

/// What has to be met at each kind of field.
const OF_KINDS: [(Kind, &[&str]); 17] = [
    (Kind::BitLookup, &NUMBERS),
    (Kind::Number, &NUMBERS),
    (Kind::Lookup, &NUMBERS),
    (Kind::IndirectLookup, &NUMBERS),
    (Kind::Pgn, &NUMBERS),
    (Kind::IsoName, &NUMBERS),
    (Kind::Float, &OTHER_NUMBERS),
    (Kind::Date, &OTHER_NUMBERS),
    (Kind::Mmsi, &OTHER_NUMBERS),
    (Kind::Duration, &OTHER_NUMBERS),
    (Kind::Time, &OTHER_NUMBERS),
    (Kind::Reserved, &["F 2"]),
    (Kind::Spare, &["F 2"]),
    (
        Kind::Binary,
        &["A", "N", "bytes", "F 2", "F 2 of bytes", "F 3", "F 9"],
    ),
    (
        Kind::StringFix,
        &[
            "A",
            "N",
            "stopped early",
            "no bytes",
            "F 2 of bytes",
            "F 3",
            "F 9",
        ],
    ),
    (
        Kind::StringLz,
        &[
            "A",
            "N",
            "zero",
            "no zero",
            "empty and unaligned",
            "unaligned zero",
            "F 2",
            "F 2 of bytes",
            "F 3",
            "F 4",
            "F 9",
        ],
    ),
    (
        Kind::StringLau,
        &[
            "A",
            "N",
            "8 bits",
            "16 bits",
            "empty and unaligned",
            "F 2",
            "F 2 of bytes",
            "F 3",
            "F 4",
            "F 9",
        ],
    ),
];

/// What else has to be met.
const OTHERS: [&str; 12] = [
    "filled",
    "a text in a filled payload",
    "under the minimum",
    "of the length",
    "an element",
    "a counter of all ones",
    "a count cut to what fits",
    "two sets of one counter",
    "F 5",
    "F 7 of the payload",
    "F 7 of the run",
    "F 8",
];

#[derive(Default)]
pub struct Coverage(Met<Shape>);

impl Coverage {
    pub fn add(&mut self, answers: &Answers) {
        let (table, model) = (&answers.asked.table, &answers.model);
        for reading in &model.readings {
            let kind = table.fields[reading.field].kind;
            self.met(Some(kind), if reading.available { "A" } else { "N" });
            if let Content::Bytes { .. } = reading.content {
                self.add_text(answers, kind, reading);
            }
            if reading.element.is_some() {
                self.met(None, "an element");
            }
        }
        match model.outcome {
            Ok(_) => {}
            Err(fault) => self.add_fault(answers, fault),
        }
        if !matches!(model.outcome, Err(Fault::Length(_) | Fault::Table(_))) {
            self.add_filling(answers);
            self.add_sets(answers);
        }
    }

    fn met(&mut self, kind: Option<Kind>, what: &'static str) {
        self.0.add((kind, what));
    }

    fn add_text(&mut self, answers: &Answers, kind: Kind, reading: &Reading) {
        let Content::Bytes { length, .. } = reading.content else {
            return;
        };
        let width = answers.asked.table.fields[reading.field].width;
        let unaligned = !reading.start.is_multiple_of(8);
        let what = match (kind, reading.bits) {
            (Kind::StringFix, 0) => "no bytes",
            (Kind::StringFix, bits) if width.is_some_and(|width| bits < width as usize) => {
                "stopped early"
            }
            (Kind::StringLz, 16) if length == 0 && unaligned => "unaligned zero",
            (Kind::StringLz, 8) if unaligned => "empty and unaligned",
            (Kind::StringLz, bits) if bits == 16 + 8 * length => "zero",
            (Kind::StringLz, _) => "no zero",
            (Kind::StringLau, _) if unaligned => "empty and unaligned",
            (Kind::StringLau, 8) => "8 bits",
            (Kind::StringLau, 16) => "16 bits",
            (Kind::Binary, _) => "bytes",
            _ => return,
        };
        self.met(Some(kind), what);
        if length > 0 && !answers.model.padding.is_empty() {
            self.met(None, "a text in a filled payload");
        }
    }

    fn add_fault(&mut self, answers: &Answers, fault: Fault) {
        let kind = |field: usize| Some(answers.asked.table.fields[field].kind);
        match fault {
            Fault::Bits { field, refusal } if refusal.unit() == 8 => {
                self.met(kind(field), "F 2 of bytes");
            }
            Fault::Bits { field, refusal } => {
                let numbers = ["F 1", "F 2", "F 3"];
                self.met(kind(field), numbers[refusal.number() as usize - 1]);
            }
            Fault::Cut { field } => self.met(kind(field), "F 4"),
            Fault::NoRoom { field } => self.met(kind(field), "F 9"),
            Fault::Elements { .. } => self.met(None, "F 5"),
            Fault::Length(length) if length == answers.case.payload.len() => {
                self.met(None, "F 7 of the payload");
            }
            Fault::Length(_) => self.met(None, "F 7 of the run"),
            Fault::Table(_) => self.met(None, "F 8"),
        }
    }

    fn add_filling(&mut self, answers: &Answers) {
        let Case { payload, .. } = answers.case;
        let table = &answers.asked.table;
        if let (Some(length), Some(minimum)) = (table.length, table.minimum) {
            match payload.len() {
                received if received < minimum => self.met(None, "under the minimum"),
                received if received == length => self.met(None, "of the length"),
                received if filled_length(table, received).is_some() => self.met(None, "filled"),
                _ => {}
            }
        }
    }

    /// The sets whose walk is over, by their counters' raws and their elements.
    fn add_sets(&mut self, answers: &Answers) {
        let table = &answers.asked.table;
        let mut counters = Vec::new();
        for set in &table.sets {
            let readings = &answers.model.readings;
            let counter = readings.iter().find(|one| one.field == set.counter);
            let Some(Content::Number { raw, .. }) = counter.map(|one| one.content) else {
                continue;
            };
            let width = table.fields[set.counter].width.unwrap_or(0);
            let declared = numbers::elements(width, raw);
            if declared == 0 && raw > 0 {
                self.met(None, "a counter of all ones");
            }
            let first = (readings.iter()).find(|one| set.range().contains(&one.field));
            let Some(first) = first else { continue };
            let left = 8 * working(&answers.model, answers.case).len() - first.start;
            let size: u32 = (table.fields[set.range()].iter())
                .filter_map(|field| field.width)
                .sum();
            if declared > (left / size as usize) as u64 {
                self.met(None, "a count cut to what fits");
            }
            if counters.contains(&set.counter) {
                self.met(None, "two sets of one counter");
            }
            counters.push(set.counter);
        }
    }

    /// How many shapes were met, or those that were not.
    pub fn outcome(&self) -> Result<String, String> {
        self.0.outcome(&shapes(&OF_KINDS, &OTHERS), "shapes")
    }
}
