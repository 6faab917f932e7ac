//! The two oracles, the Rust unchanged and the one with stand-ins, asked about a number field.
use model::numbers::{Field, Kind, Mark, Value};

/// A number for refusals that no number field should meet.
pub const OTHER_REFUSAL: u32 = 99;

macro_rules! numbers_of {
    ($krate:ident, $types:ident) => {
        use crate::oracle_types::$types::{descriptor, from_rust, leaked, to_rust};
        use ::$krate::core::{Availability, PgnDescriptor, RepeatingFieldSet};
        use ::$krate::error::SerializationError;

        /// A counter and a set of one other field, without a limit.
        fn counted(counter: &Field, other: &Field) -> &'static PgnDescriptor {
            let set = RepeatingFieldSet {
                array_id: "set",
                count_field_index: Some(0),
                start_field_index: 1,
                size: 1,
                max_repetitions: usize::MAX,
            };
            leaked(
                [counter, other].map(descriptor).into(),
                vec![set],
                [None; 2],
            )
        }

        fn refusal(error: SerializationError) -> u32 {
            match error {
                SerializationError::ValueOutOfRange { .. } => 10,
                SerializationError::CodecError { .. } => 11,
                _ => super::OTHER_REFUSAL,
            }
        }
    };
}

/// The raw in a buffer that was all ones before a field was written at its start, if only the field's
/// bits were written.
fn raw_in(buffer: [u8; 8], width: u32) -> u64 {
    let bits = u64::from_le_bytes(buffer);
    let rest = u64::MAX.checked_shl(width).unwrap_or(0);
    assert_eq!(bits & rest, rest, "the bits after the field are kept");
    bits & !rest
}

/// The Rust unchanged, through its public calls.
pub mod rust {
    use super::{Field, Value, raw_in};
    use korri_n2k::core::PgnValue;
    use korri_n2k::infra::codec::engine::{for_each_field, serialize};
    use korri_n2k::infra::codec::traits::FieldAccess;
    numbers_of!(korri_n2k, rust);

    pub struct Asked {
        width: u32,
        table: &'static PgnDescriptor,
    }

    /// A message of one value.
    struct One(PgnValue);

    impl FieldAccess for One {
        fn field(&self, _id: &'static str) -> Option<PgnValue> {
            Some(self.0.clone())
        }

        fn field_mut(&mut self, _id: &'static str, _value: PgnValue) -> Option<()> {
            None
        }
    }

    impl Asked {
        pub fn new(field: &Field) -> Asked {
            Asked {
                width: field.width,
                table: leaked(vec![descriptor(field)], Vec::new(), [None; 2]),
            }
        }

        /// The value of a raw, and whether it is available.
        pub fn scale(&self, raw: u64) -> (Value, bool) {
            let mut read = None;
            for_each_field(self.table, &raw.to_le_bytes(), |_, reading| {
                let available = reading.availability == Availability::Available;
                read = Some((from_rust(&reading.value), available));
            })
            .expect("a payload of 8 bytes holds the field");
            read.expect("the field is read")
        }

        pub fn raw_of(&self, value: Value) -> Result<u64, u32> {
            let mut buffer = [0; 8];
            let used = serialize(&One(to_rust(value)), &mut buffer, self.table).map_err(refusal)?;
            assert_eq!(used, self.width.div_ceil(8) as usize);
            Ok(raw_in(buffer, self.width))
        }
    }

    /// How many times a set of one byte is read from a payload that starts with the counter.
    pub fn read_elements(counter: &Field, byte: &Field, payload: &[u8]) -> u64 {
        let mut count = 0;
        for_each_field(counted(counter, byte), payload, |_, reading| {
            count += u64::from(reading.repetition.is_some());
        })
        .expect("the count is cut to what fits");
        count
    }
}

/// The Rust with stand-ins, through its opened functions.
pub mod standin {
    use super::{Field, Kind, Mark, Value, raw_in};
    use ::standin::infra::codec::bits::{BitReader, BitWriter};
    use ::standin::infra::codec::engine::open;
    use ::standin::marks::{self, Marked};
    numbers_of!(standin, standin);

    pub struct Asked {
        width: u32,
        table: &'static PgnDescriptor,
        mark: Option<Marked>,
    }

    impl Asked {
        pub fn new(field: &Field) -> Asked {
            let other = Field {
                kind: Kind::Number,
                width: 1,
                signed: false,
                scale: None,
            };
            Asked {
                width: field.width,
                table: counted(field, &other),
                mark: field.scale.map(|scale| Marked {
                    bits: field.width,
                    signed: field.signed,
                    resolution: scale.resolution,
                    single: scale.mark == Mark::Single,
                }),
            }
        }

        /// The value of a raw, and whether it is available.
        pub fn scale(&self, raw: u64) -> (Value, bool) {
            let field = &self.table.fields[0];
            let payload = raw.to_le_bytes();
            let mut reader = BitReader::new(&payload);
            let (raw, value) = marks::with(self.mark.as_slice(), || {
                open::read_field_raw_and_value(&mut reader, field, false)
            })
            .expect("a payload of 8 bytes holds the field")
            .expect("the field is read");
            let availability = open::field_availability(field, raw, &value);
            (from_rust(&value), availability == Availability::Available)
        }

        /// The elements that a raw means, with room for all of them.
        pub fn elements(&self, raw: u64) -> u64 {
            let set = &self.table.repeating_field_sets[0];
            open::repeating_group_count(self.table, set, Some(raw as usize), usize::MAX)
                .expect("the set has no limit") as u64
        }

        pub fn raw_of(&self, value: Value) -> Result<u64, u32> {
            let mut buffer = [0xFF; 8];
            let mut writer = BitWriter::new(&mut buffer);
            open::write_field(&mut writer, &self.table.fields[0], &to_rust(value))
                .map_err(refusal)?;
            assert_eq!(writer.bit_cursor(), self.width as usize);
            Ok(raw_in(buffer, self.width))
        }
    }

    /// The unchanged private function.
    pub fn sign_extend(raw: u64, width: u32) -> i64 {
        open::sign_extend(raw, width as u8)
    }
}
