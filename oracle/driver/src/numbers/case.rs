//! A call on numbers with its inputs, and what a side answers to it.
use super::value_kinds::{value_code, value_name};
use crate::samopute::CField;
use crate::tally::OUTCOMES;
use model::numbers::{Field, Refusal, Scaled, Value, ValueKind, scale_of};
use model::tables::{KINDS, kind_of};

#[derive(Clone, Copy, Debug, PartialEq)]
pub enum Call {
    /// The value of a raw, whether it is available, and the elements that it means as a counter.
    Scale(u64),
    /// The raw of a value.
    RawOf(Value),
    /// The raw of what is no value of any kind, by a kind's number and bits.
    RawOfNone { kind: u32, bits: u64 },
}

#[derive(Clone, Copy, Debug, PartialEq)]
pub struct Case {
    /// As the interface takes it.
    pub passed: CField,
    /// As the model has it.
    pub field: Field,
    pub call: Call,
}

/// An answer as the C interface gives it.
///
/// Scale: 0 or the refusal; the kind of the value, its number, 1 if it is not available, the elements, or
/// what the refusal carries.
/// RawOf: 0 or the refusal; the raw, or what the refusal carries. The fourth is always 0.
#[derive(Clone, Copy, Debug, PartialEq, Eq)]
pub struct Answer {
    pub number: u32,
    pub values: [u64; 4],
}

/// The outcome of an answer: a value's kind by its code or, of a raw, 0.
const REFUSED: usize = 20;

/// The outcome of a refusal.
pub const fn refused(number: u32) -> usize {
    REFUSED + number as usize
}

/// An outcome's name: a kind of value, `ok`, or `F` and the refusal.
pub fn outcome_name(outcome: usize) -> String {
    match outcome {
        0 => "ok".to_string(),
        REFUSED.. => format!("F {}", outcome - REFUSED),
        code => value_name(code as u64),
    }
}

impl Answer {
    pub fn of_scale(value: Value, available: bool, elements: u64) -> Answer {
        let kind = value_code(value.kind).into();
        Answer {
            number: 0,
            values: [kind, value.bits, u64::from(!available), elements],
        }
    }

    pub fn of_scaled(outcome: Result<Scaled, Refusal>) -> Answer {
        match outcome {
            Ok(scaled) => Answer::of_scale(scaled.value, scaled.available, scaled.elements),
            Err(refusal) => Answer::of_refusal(refusal),
        }
    }

    pub fn of_raw(outcome: Result<u64, u32>) -> Answer {
        let (number, raw) = match outcome {
            Ok(raw) => (0, raw),
            Err(number) => (number, 0),
        };
        Answer {
            number,
            values: [raw, 0, 0, 0],
        }
    }

    pub fn of_refusal(refusal: Refusal) -> Answer {
        let [first, second] = refusal.carried();
        Answer {
            number: refusal.number(),
            values: [first, second, 0, 0],
        }
    }

    /// By what it is counted.
    pub fn outcome(self, case: &Case) -> usize {
        match (self.number, case.call) {
            (0, Call::Scale(_)) => (self.values[0] as usize).min(OUTCOMES - 1),
            (0, _) => 0,
            (number, _) => refused(number).min(OUTCOMES - 1),
        }
    }

    /// `VALUEKIND VALUE A|N` or `ok RAW`, or `F NUMBER CARRIED...`, the form of the sample.
    pub fn line(self, case: &Case) -> String {
        let [first, second, third, _] = self.values;
        match (self.number, case.call) {
            (0, Call::Scale(_)) => {
                let state = if third == 0 { 'A' } else { 'N' };
                format!("{} {second:X} {state}", value_name(first))
            }
            (0, _) => format!("ok {first:X}"),
            (1, _) => format!("F 1 {first} {second}"),
            (number, _) => format!("F {number}"),
        }
    }
}

impl Case {
    pub fn new(field: Field, call: Call) -> Case {
        let scale = field.scale;
        let passed = CField {
            kind: field.kind as u32,
            width: field.width,
            is_signed: field.signed.into(),
            mark: scale.map_or(0, |scale| scale.mark as u32 + 1),
            resolution: scale.map_or(0, |scale| scale.resolution.to_bits()),
        };
        Case {
            passed,
            field,
            call,
        }
    }

    /// A field of any numbers.
    pub fn passed(passed: CField, call: Call) -> Case {
        Case {
            passed,
            field: field_of(&passed),
            call,
        }
    }

    /// `scale FIELD RAW` or `raw FIELD VALUEKIND VALUE`, the form of the sample.
    pub fn line(&self) -> String {
        let field = field_text(&self.passed);
        match self.call {
            Call::Scale(raw) => format!("scale {field} {raw:X}"),
            Call::RawOf(value) => format!("raw {field} {:?} {:X}", value.kind, value.bits),
            Call::RawOfNone { kind, bits } => {
                format!("raw {field} {} {bits:X}", value_name(kind.into()))
            }
        }
    }

    /// What makes one case smaller than another: narrow, unscaled, unsigned, then the number.
    pub fn size(&self) -> [u64; 5] {
        let field = &self.field;
        let resolution = field.scale.map_or(0, |scale| distance(scale.resolution));
        let (kind, number) = match self.call {
            Call::Scale(raw) => (0, raw),
            Call::RawOf(value) => (value.kind as u64, magnitude(value)),
            Call::RawOfNone { kind, bits } => (kind.into(), bits),
        };
        [
            field.width.into(),
            resolution,
            field.signed.into(),
            number,
            kind,
        ]
    }
}

/// The field that the numbers are.
pub fn field_of(passed: &CField) -> Field {
    Field {
        kind: kind_of(passed.kind as usize),
        width: passed.width,
        signed: passed.is_signed != 0,
        scale: scale_of(passed.mark, passed.resolution),
    }
}

/// How far a resolution is from 1, by its bits.
fn distance(resolution: f32) -> u64 {
    1 + u64::from(resolution.to_bits().abs_diff(1f32.to_bits()))
}

/// A number without its sign, twice, so that a negative one is the larger.
fn magnitude(value: Value) -> u64 {
    let negative = value.bits >> 63;
    match value.kind {
        ValueKind::F64 => value.bits << 1 | negative,
        ValueKind::F32 => value.bits << 33 >> 32 | value.bits >> 31,
        ValueKind::I64 | ValueKind::I32 | ValueKind::I16 | ValueKind::I8 => {
            let size = (value.bits as i64).unsigned_abs();
            size.saturating_mul(2).saturating_sub(negative)
        }
        _ => value.bits,
    }
}

/// `KIND WIDTH SIGN MARK RESOLUTION`. A kind or a mark without a name is its number.
fn field_text(field: &CField) -> String {
    let sign = if field.is_signed == 0 { 'u' } else { 's' };
    let mark = match field.mark {
        0 => "-".to_string(),
        1 => "S".to_string(),
        2 => "D".to_string(),
        mark => mark.to_string(),
    };
    let resolution = match (field.mark, field.resolution) {
        (0, 0) => "-".to_string(),
        (_, bits) => format!("{bits:08X}"),
    };
    let kind = kind_name(field.kind);
    format!("{kind} {} {sign} {mark} {resolution}", field.width)
}

/// A kind of field by its code.
pub fn kind_name(code: u32) -> String {
    match KINDS.get(code as usize) {
        Some(kind) => format!("{kind:?}"),
        None => code.to_string(),
    }
}
