//! Where the Rust is known to part from document 01 on reading, told by the input alone. Such a case, or
//! the part of it that is touched, is not compared with it; it is counted, and each reason has to show a
//! case that does differ.
use super::answer::Answer;
use super::asked::Asked;
use super::case::Case;
use super::told::{Seen, Told, working};
use crate::numbers::differences::other_mark;
use crate::payload::described::number_field;
use crate::tally;
use model::numbers::Kind;
use model::reading::{Content, Fault, PADDING, Reading};
use model::tables::{PAYLOAD_MAX, Table};

#[derive(Clone, Copy, Debug, PartialEq, Eq, PartialOrd, Ord)]
pub enum Reason {
    Mark,
    MmsiZero,
    LengthByte,
    LongPayload,
    PaddingRun,
    RefusedTable,
}

impl tally::Reason for Reason {
    const ALL: &'static [Reason] = &[
        Reason::Mark,
        Reason::MmsiZero,
        Reason::LengthByte,
        Reason::LongPayload,
        Reason::PaddingRun,
        Reason::RefusedTable,
    ];
    const COUNTED: [&'static str; 2] = ["", ""];

    /// What is left out comes first.
    fn text(self) -> &'static str {
        match self {
            Reason::Mark => {
                "value of a reading, f32 or f64 by width, sign and resolution, not by the mark"
            }
            Reason::MmsiZero => "availability of a reading, Mmsi of raw 0 is not available",
            Reason::LengthByte => "refusal, length bytes of 224 to 230 are not refused as such",
            Reason::LongPayload => "case, a payload over 223 bytes is read",
            Reason::PaddingRun => "case, no padding run is lent",
            Reason::RefusedTable => "case, no table is checked",
        }
    }
}

/// What of a case is not compared with the Rust.
#[derive(Default)]
pub struct Excused {
    pub whole: Option<Reason>,
    /// For each of the model's readings.
    pub readings: Vec<ExcusedReading>,
    pub refusal: Option<Reason>,
}

#[derive(Clone, Copy, Default)]
pub struct ExcusedReading {
    value: Option<Reason>,
    availability: Option<Reason>,
}

impl Excused {
    pub fn new(asked: &Asked, case: &Case, model: &Answer, stopped: usize) -> Excused {
        let whole = whole(asked, case);
        if whole.is_some() {
            return Excused {
                whole,
                ..Excused::default()
            };
        }
        let excuse = |reading: &Reading| of_reading(&asked.table, reading);
        Excused {
            whole,
            readings: model.readings.iter().map(excuse).collect(),
            refusal: of_refusal(&asked.table, case, model, stopped),
        }
    }

    /// One for each part that is not compared.
    pub fn reasons(&self) -> Vec<Reason> {
        let of_case = [self.whole, self.refusal].into_iter();
        let of_readings = (self.readings.iter()).flat_map(|one| [one.value, one.availability]);
        of_case.chain(of_readings).flatten().collect()
    }
}

/// The Rust has neither 7 nor 8.
fn whole(asked: &Asked, case: &Case) -> Option<Reason> {
    if !asked.is_accepted {
        Some(Reason::RefusedTable)
    } else if case.payload.len() > PAYLOAD_MAX {
        Some(Reason::LongPayload)
    } else {
        (case.padding != PADDING).then_some(Reason::PaddingRun)
    }
}

fn of_reading(table: &Table, reading: &Reading) -> ExcusedReading {
    let field = &table.fields[reading.field];
    let Content::Number { raw, .. } = reading.content else {
        return ExcusedReading::default();
    };
    let number = number_field(field);
    let is_other = (field.scale).is_some_and(|scale| other_mark(&number, scale));
    let is_zero = field.kind == Kind::Mmsi && raw == 0;
    ExcusedReading {
        value: is_other.then_some(Reason::Mark),
        availability: is_zero.then_some(Reason::MmsiZero),
    }
}

/// The Rust's own limit of a length byte is 230: from 224 on it goes on to a text that no payload holds.
fn of_refusal(table: &Table, case: &Case, model: &Answer, stopped: usize) -> Option<Reason> {
    let Err(Fault::Cut { field }) = model.outcome else {
        return None;
    };
    let kind = table.fields[field].kind;
    let length = model::read(working(model, case), stopped, 8, 8).ok()?.0;
    let has_length = matches!(kind, Kind::StringLz | Kind::StringLau);
    (has_length && (224..=230).contains(&length)).then_some(Reason::LengthByte)
}

/// Whether two answers are the same but for what is excused.
pub fn same_but(excused: &Excused, side: &Told, rust: &Told) -> bool {
    let excuse = |i: usize| excused.readings.get(i).copied().unwrap_or_default();
    let mut pairs = side.readings.iter().zip(&rust.readings).enumerate();
    side.readings.len() == rust.readings.len()
        && pairs.all(|(i, (one, other))| same_reading(excuse(i), one, other))
        && (side.refusal == rust.refusal || excused.refusal.is_some())
}

fn same_reading(excuse: ExcusedReading, one: &Seen, other: &Seen) -> bool {
    let key = |seen: &Seen| (seen.field, seen.element, seen.raw);
    key(one) == key(other)
        && (one.what == other.what || excuse.value.is_some())
        && (one.available == other.available || excuse.availability.is_some())
}

/// The reasons under which the Rust does differ in a case, one for each part.
pub fn parting(excused: &Excused, model: &Told, rust: &Told) -> Vec<Reason> {
    if let Some(reason) = excused.whole {
        return if model == rust { vec![] } else { vec![reason] };
    }
    let mut all = Vec::new();
    let pairs = model.readings.iter().zip(&rust.readings);
    for ((one, other), excuse) in pairs.zip(&excused.readings) {
        all.extend(excuse.value.filter(|_| one.what != other.what));
        all.extend((excuse.availability).filter(|_| one.available != other.available));
    }
    all.extend(excused.refusal.filter(|_| model.refusal != rust.refusal));
    all
}
