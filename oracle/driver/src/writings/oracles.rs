//! The two oracles, the Rust unchanged and the one with stand-ins, asked to write values. They have the same
//! types under two names, so what makes and reads those is written once.
use super::answer::{Answer, Outcome};
use super::case::Case;
use super::kinds::takes_value;
use super::laid::Laid;
use crate::payload::described::number_of;
use model::numbers::Kind;
use model::tables::Table;
use model::writing::Given;

/// What a message does where a set's counter says more than its maximum.
#[derive(Clone, Copy, PartialEq, Eq)]
enum TooMany {
    /// It hands out the number, which the Rust cuts to the maximum.
    HandedOut,
    /// It has no such array: the walk stops where the set starts.
    Missing,
}

/// A text or bytes as the Rust is given them.
enum Fetched<'a> {
    /// A StringLau's encoding byte comes first.
    Bytes(Option<u8>, &'a [u8]),
    /// More than the lent text has: a length that the Rust's own buffer does not have.
    Past,
    /// The Rust has no way to say it: an encoding byte on another kind, or text without one on a
    /// StringLau.
    Unsaid,
}

/// A text or bytes for a kind of field, as far as the Rust can be told.
fn fetched(kind: Kind, place: u64, length: u64, encoding: Option<u8>, text: &[u8]) -> Fetched<'_> {
    let is_unsaid = match encoding {
        Some(_) => kind != Kind::StringLau,
        None => kind == Kind::StringLau && length > 0,
    };
    if is_unsaid {
        return Fetched::Unsaid;
    }
    let place = usize::try_from(place).unwrap_or(usize::MAX);
    let length = usize::try_from(length).unwrap_or(usize::MAX);
    match text.get(place..place.saturating_add(length)) {
        Some(bytes) => Fetched::Bytes(encoding, bytes),
        None => Fetched::Past,
    }
}

macro_rules! writing_of {
    ($krate:ident, $types:ident) => {
        use super::{Answer, Case, Fetched, Given, Laid, Outcome, Table, TooMany};
        use super::{fetched, number_of, takes_value};
        use crate::oracle_types::$types::to_rust;
        use crate::payload::described::$types::described;
        use ::$krate::core::{PgnBytes, PgnDescriptor, PgnValue};
        use ::$krate::error::{BitWriterError, SerializationError};
        use ::$krate::infra::codec::engine::serialize;
        use ::$krate::infra::codec::traits::FieldAccess;
        use model::Refusal;
        use model::writing::Fault;
        use std::cell::Cell;

        /// A table for the rest of the run.
        pub struct Asked {
            table: Table,
            descriptor: &'static PgnDescriptor,
        }

        impl Asked {
            pub fn new(table: &Table) -> Asked {
                Asked {
                    table: table.clone(),
                    descriptor: described(table),
                }
            }

            fn ask(&self, case: &Case, too_many: TooMany) -> Answer {
                let values = case.given();
                let message = Message {
                    table: &self.table,
                    laid: Laid::new(&self.table, &values),
                    values: &values,
                    text: &case.text,
                    too_many,
                    asked: Cell::new(0),
                    handed_out: Cell::new(0),
                    over: Cell::new(None),
                };
                let mut buffer = vec![0; case.size];
                let outcome = match serialize(&message, &mut buffer, self.descriptor) {
                    Ok(used) => message.ended(used),
                    Err(error) => message.refused(error),
                };
                Answer { outcome, buffer }
            }
        }

        /// Values by name. It notes what it was asked for last, which a refusal of the Rust does not say.
        struct Message<'a> {
            table: &'a Table,
            laid: Laid,
            values: &'a [Given],
            text: &'a [u8],
            too_many: TooMany,
            asked: Cell<usize>,
            handed_out: Cell<usize>,
            /// The set that has more elements than its maximum.
            over: Cell<Option<Fault>>,
        }

        impl Message<'_> {
            /// A skipped field is asked for too, and what it gets is not looked at.
            fn value(&self, field: usize, place: impl Fn() -> Option<usize>) -> Option<PgnValue> {
                self.asked.set(field);
                if !takes_value(&self.table.fields[field]) {
                    return Some(PgnValue::Ignored);
                }
                let place = place()?;
                let value = *self.values.get(place)?;
                self.handed_out.set(place + 1);
                Some(self.value_of(field, value))
            }

            fn value_of(&self, field: usize, value: Given) -> PgnValue {
                let kind = self.table.fields[field].kind;
                match value {
                    Given::Nothing => PgnValue::Ignored,
                    Given::Number(value) => to_rust(value),
                    Given::Bytes {
                        place,
                        length,
                        encoding,
                    } => match fetched(kind, place, length, encoding, self.text) {
                        Fetched::Bytes(encoding, text) => PgnValue::Bytes(bytes(encoding, text)),
                        Fetched::Past => PgnValue::Bytes(PgnBytes {
                            len: usize::MAX,
                            ..PgnBytes::new()
                        }),
                        Fetched::Unsaid => PgnValue::Ignored,
                    },
                }
            }

            /// The Rust never asks for what is left over, nor for elements over the maximum.
            fn ended(&self, used: usize) -> Outcome {
                let is_left_over = self.handed_out.get() < self.values.len();
                match is_left_over && self.over.get().is_none() {
                    true => Outcome::Refused(Fault::Values(self.table.fields.len())),
                    false => Outcome::Used(used),
                }
            }

            fn refused(&self, error: SerializationError) -> Outcome {
                let field = self.asked.get();
                let fault = match error {
                    SerializationError::FieldNotFound { .. } => {
                        let over = self
                            .over
                            .get()
                            .filter(|_| self.too_many == TooMany::Missing);
                        over.unwrap_or(Fault::Values(field))
                    }
                    SerializationError::CodecError { .. } => Fault::OtherKind { field },
                    SerializationError::ValueOutOfRange { .. } => Fault::OutOfRange { field },
                    SerializationError::InvalidData => Fault::TooLong { field },
                    SerializationError::BitWriteError { err } => {
                        let refusal = refusal(err);
                        Fault::Bits { field, refusal }
                    }
                    other => return Outcome::Other(format!("{other:?}")),
                };
                Outcome::Refused(fault)
            }
        }

        impl FieldAccess for Message<'_> {
            fn field(&self, id: &'static str) -> Option<PgnValue> {
                let field = number_of(id);
                self.value(field, || self.laid.place(field))
            }

            fn field_mut(&mut self, _id: &'static str, _value: PgnValue) -> Option<()> {
                None
            }

            fn repetitive_field(
                &self,
                array: &'static str,
                element: usize,
                id: &'static str,
            ) -> Option<PgnValue> {
                let (set, field) = (number_of(array), number_of(id));
                self.value(field, || self.laid.place_in(set, element, field))
            }

            fn repetitive_count(&self, array: &'static str) -> Option<usize> {
                let set = number_of(array);
                let count = self.laid.count(set)?;
                let maximum = self.table.sets[set].maximum;
                if count > maximum as u64 {
                    self.over.set(Some(Fault::Elements {
                        set,
                        count,
                        maximum,
                    }));
                    if self.too_many == TooMany::Missing {
                        return None;
                    }
                }
                Some(count as usize)
            }
        }

        /// Longer ones keep their length, which is then more than the Rust's buffer has.
        fn bytes(encoding: Option<u8>, text: &[u8]) -> PgnBytes {
            let all = [encoding.as_slice(), text].concat();
            let mut bytes = PgnBytes::new();
            bytes.copy_from_slice(&all);
            bytes.len = all.len();
            bytes
        }

        fn refusal(error: BitWriterError) -> Refusal {
            match error {
                BitWriterError::TooLongForType { max, asked } => Refusal::Width {
                    max: max.into(),
                    width: asked.into(),
                },
                BitWriterError::OutOfBounds { asked, available } => {
                    Refusal::BeyondBits { asked, available }
                }
                BitWriterError::NonAlignedBit { cursor } => Refusal::Unaligned { cursor },
            }
        }
    };
}

/// The Rust unchanged.
pub mod rust {
    writing_of!(korri_n2k, rust);

    impl Asked {
        pub fn write(&self, case: &Case) -> Answer {
            self.ask(case, TooMany::HandedOut)
        }
    }
}

/// The Rust with stand-ins. Its walk is the Rust's own, so that a set over its maximum has to be kept
/// from it.
pub mod standin {
    writing_of!(standin, standin);

    impl Asked {
        pub fn write(&self, case: &Case) -> Answer {
            self.ask(case, TooMany::Missing)
        }
    }
}
