//! The two oracles, the Rust unchanged and the one with stand-ins, asked to read a payload. They have the
//! same types under two names, so what makes and reads those is written once.
use super::told::{Refused, Seen, Told, What};
use crate::payload::described::number_of;
use model::tables::Table;

/// A number for refusals that no accepted table should meet.
const OTHER_REFUSAL: u32 = 99;

macro_rules! reading_of {
    ($krate:ident, $types:ident) => {
        use super::{OTHER_REFUSAL, Refused, Seen, Table, Told, What, number_of};
        use crate::oracle_types::$types::from_rust;
        use crate::payload::described::$types::described;
        use ::$krate::core::{Availability, FieldDescriptor, FieldKind, PgnDescriptor, PgnValue};
        use ::$krate::error::{BitReaderError, DeserializationError};
        use ::$krate::infra::codec::engine::{FieldReading, for_each_field};

        fn index(table: &PgnDescriptor, field: &FieldDescriptor) -> usize {
            let address = std::ptr::from_ref(field).addr();
            (address - table.fields.as_ptr().addr()) / size_of::<FieldDescriptor>()
        }

        /// What is handed out before there is no room, and the refusal.
        fn walked(table: &'static PgnDescriptor, payload: &[u8], room: u64) -> Told {
            let mut readings = Vec::new();
            let mut no_room = None;
            let outcome = for_each_field(table, payload, |field, reading| {
                let number = index(table, field);
                if readings.len() as u64 >= room {
                    no_room = no_room.or(Some(number));
                } else {
                    readings.push(seen(number, field.kind, reading));
                }
            });
            let refusal = match (no_room, outcome) {
                (Some(field), _) => Some(Refused {
                    number: 9,
                    field: None,
                    carried: vec![field as u64],
                }),
                (None, outcome) => outcome.err().map(refused),
            };
            Told {
                readings,
                refusal,
                end: None,
                padding: None,
            }
        }

        fn seen(field: usize, kind: FieldKind, reading: FieldReading) -> Seen {
            let what = match &reading.value {
                PgnValue::Bytes(bytes) => bytes_seen(kind, bytes.as_slice()),
                value => What::Number(from_rust(value)),
            };
            Seen {
                field,
                element: reading.repetition.map(|(_, element)| element),
                raw: reading.raw,
                what,
                available: reading.availability == Availability::Available,
                span: None,
            }
        }

        /// The value of a StringLau starts with the encoding byte, if there is one.
        fn bytes_seen(kind: FieldKind, bytes: &[u8]) -> What {
            match (kind, bytes.split_first()) {
                (FieldKind::StringLau, Some((&encoding, text))) => What::Bytes {
                    bytes: text.to_vec(),
                    encoding: Some(encoding),
                },
                _ => What::Bytes {
                    bytes: bytes.to_vec(),
                    encoding: None,
                },
            }
        }

        pub fn refused(error: DeserializationError) -> Refused {
            let (number, carried) = match error {
                DeserializationError::BitReaderError { err } => match err {
                    BitReaderError::TooLongForType { max, asked } => {
                        (1, vec![max.into(), asked.into()])
                    }
                    BitReaderError::OutOfBounds { asked, available } => {
                        (2, vec![asked as u64, available as u64])
                    }
                    BitReaderError::NonAlignedBit { cursor } => (3, vec![cursor as u64]),
                },
                DeserializationError::InvalidDataLength => (4, vec![]),
                DeserializationError::RepetitionsExceedCapacity {
                    array_id,
                    count,
                    max,
                } => {
                    let set = number_of(array_id);
                    (5, vec![set as u64, count as u64, max as u64])
                }
                _ => (OTHER_REFUSAL, vec![]),
            };
            Refused {
                number,
                field: None,
                carried,
            }
        }
    };
}

/// The Rust unchanged, through its public call.
pub mod rust {
    reading_of!(korri_n2k, rust);

    pub struct Asked(&'static PgnDescriptor);

    impl Asked {
        pub fn new(table: &Table) -> Asked {
            Asked(described(table))
        }

        /// The table as the Rust has it.
        pub fn descriptor(&self) -> &'static PgnDescriptor {
            self.0
        }

        pub fn read(&self, payload: &[u8], room: u64) -> Told {
            walked(self.0, payload, room)
        }
    }
}

/// The Rust with stand-ins, through its public call and, for what that does not hand out, through opened
/// functions.
pub mod standin {
    use ::standin::core::MAX_PGN_BYTES;
    use ::standin::core::RepeatingFieldSet;
    use ::standin::infra::codec::bits::BitReader;
    use ::standin::infra::codec::engine::open;
    use ::standin::marks::{self, Marked};
    use model::numbers::{Kind, Mark};
    use model::tables::Field;
    reading_of!(standin, standin);

    pub struct Asked {
        table: &'static PgnDescriptor,
        marks: Vec<Marked>,
    }

    impl Asked {
        pub fn new(table: &Table) -> Asked {
            Asked {
                table: described(table),
                marks: table.fields.iter().filter_map(marked).collect(),
            }
        }

        /// What the walk hands out, and what it does not: that is asked by going it again.
        pub fn read(&self, payload: &[u8], room: u64) -> Told {
            marks::with(&self.marks, || {
                let mut told = walked(self.table, payload, room);
                let mut run = [0xFF; MAX_PGN_BYTES];
                let working = open::pad_to_min_length(payload, self.table, &mut run);
                let is_filled = working.len() > payload.len();
                let padding = if is_filled { working } else { &[] };
                told.padding = Some(padding.to_vec());

                let mut again = Again::new(self.table, working);
                let outcome = again.run();
                for (seen, span) in told.readings.iter_mut().zip(again.spans) {
                    seen.span = Some(span);
                }
                match &mut told.refusal {
                    None => told.end = outcome.ok(),
                    Some(refused) if (1..=4).contains(&refused.number) => {
                        refused.field = outcome.err();
                    }
                    Some(_) => {}
                }
                told
            })
        }
    }

    /// The walk gone again with the functions that it is made of.
    struct Again<'a> {
        table: &'static PgnDescriptor,
        reader: BitReader<'a>,
        raws: Vec<Option<usize>>,
        spans: Vec<[usize; 2]>,
    }

    impl Again<'_> {
        fn new<'a>(table: &'static PgnDescriptor, working: &'a [u8]) -> Again<'a> {
            Again {
                table,
                reader: BitReader::new(working),
                raws: vec![None; table.fields.len()],
                spans: Vec::new(),
            }
        }

        /// Where it ends, or the field at which it stops.
        fn run(&mut self) -> Result<usize, usize> {
            let last = self.table.fields.len() - 1;
            let mut field = 0;
            while field <= last {
                let sets = self.table.repeating_field_sets;
                match sets.iter().find(|set| set.start_field_index == field) {
                    Some(set) => {
                        self.read_set(set)?;
                        field += set.size;
                    }
                    None => {
                        self.read(field, field == last)?;
                        field += 1;
                    }
                }
            }
            Ok(self.reader.bit_cursor())
        }

        fn read_set(&mut self, set: &'static RepeatingFieldSet) -> Result<(), usize> {
            let first = set.start_field_index;
            let raw = set.count_field_index.and_then(|counter| self.raws[counter]);
            let left = self.reader.bits_remaining();
            let count = open::repeating_group_count(self.table, set, raw, left);
            for _ in 0..count.map_err(|_| first)? {
                for field in first..first + set.size {
                    self.read(field, false)?;
                }
            }
            Ok(())
        }

        fn read(&mut self, field: usize, may_stop_early: bool) -> Result<(), usize> {
            let start = self.reader.bit_cursor();
            let described = &self.table.fields[field];
            let read = open::read_field_raw_and_value(&mut self.reader, described, may_stop_early);
            if let Some((raw, _)) = read.map_err(|_| field)? {
                self.raws[field] = raw.map(|raw| raw as usize);
                self.spans.push([start, self.reader.bit_cursor() - start]);
            }
            Ok(())
        }
    }

    /// The mark under what the stand-in is asked with. A Time never asks.
    fn marked(field: &Field) -> Option<Marked> {
        let scale = field.scale.filter(|_| field.kind != Kind::Time)?;
        Some(Marked {
            bits: field.width?,
            signed: field.signed,
            resolution: scale.resolution,
            single: scale.mark == Mark::Single,
        })
    }
}
