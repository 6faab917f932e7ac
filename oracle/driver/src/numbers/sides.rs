//! The same case asked of the four sides: the library under test, the model, the oracle with stand-ins,
//! and the Rust unchanged. The last two speak of fields that the table rules allow.
use super::case::{Answer, Call, Case};
use super::oracles::{rust, standin};
use super::value_kinds::{is_odd_nan, value_code};
use crate::samopute;
use crate::sides::UNSET;
use model::numbers::{self, Field, Refusal, ValueKind};

const NO_VALUE: &str = "what is no value is asked of the library and the model alone";

/// The oracles made ready for a field.
pub struct Asked {
    rust: rust::Asked,
    standin: standin::Asked,
}

impl Asked {
    pub fn new(field: &Field) -> Asked {
        Asked {
            rust: rust::Asked::new(field),
            standin: standin::Asked::new(field),
        }
    }

    pub fn standin(&self, case: &Case) -> Answer {
        match case.call {
            Call::Scale(raw) => {
                let (value, available) = self.standin.scale(raw);
                Answer::of_scale(value, available, self.standin.elements(raw))
            }
            Call::RawOf(value) => Answer::of_raw(self.standin.raw_of(value)),
            Call::RawOfNone { .. } => unreachable!("{NO_VALUE}"),
        }
    }

    /// The Rust says nothing of elements here: they are taken from the side that it is held against.
    pub fn rust(&self, case: &Case, elements: u64) -> Answer {
        match case.call {
            Call::Scale(raw) => {
                let (value, available) = self.rust.scale(raw);
                Answer::of_scale(value, available, elements)
            }
            Call::RawOf(value) => Answer::of_raw(self.rust.raw_of(value)),
            Call::RawOfNone { .. } => unreachable!("{NO_VALUE}"),
        }
    }
}

/// Document 01's answer. At the interface bytes are of no kind: a kind and 64 bits are not all that they are.
pub fn model(case: &Case) -> Answer {
    let field = &case.field;
    match case.call {
        Call::Scale(raw) => Answer::of_scaled(numbers::scale(field, raw)),
        Call::RawOf(value) if value.kind == ValueKind::Bytes => {
            Answer::of_refusal(Refusal::OtherKind)
        }
        Call::RawOf(value) => match numbers::raw_of(field, value) {
            Ok(raw) => Answer::of_raw(Ok(raw)),
            Err(refusal) => Answer::of_refusal(refusal),
        },
        Call::RawOfNone { .. } => Answer::of_refusal(Refusal::OtherKind),
    }
}

/// The answer of the library under test, if the case can be passed to it: there is one NaN at its
/// interface.
pub fn ours(case: &Case) -> Option<Answer> {
    let (kind, bits) = match case.call {
        Call::Scale(raw) => {
            let mut values = [UNSET; 4];
            let number = samopute::scale(&case.passed, raw, &mut values);
            return Some(Answer { number, values });
        }
        Call::RawOf(value) if is_odd_nan(value) => return None,
        Call::RawOf(value) => (value_code(value.kind), value.bits),
        Call::RawOfNone { kind, bits } => (kind, bits),
    };
    let mut values = [UNSET; 3];
    let number = samopute::raw_of(&case.passed, kind, bits, &mut values);
    let [first, second, third] = values;
    let values = [first, second, third, 0];
    Some(Answer { number, values })
}
