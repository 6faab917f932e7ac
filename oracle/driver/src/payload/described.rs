//! A table as the two oracles have it. Fields and sets have their numbers for names.
use model::numbers;
use model::tables::{Field, WIDTH_MAX};

/// The names of fields and sets: two digits of these for each number.
const NAMES: &str = "0001020304050607080910111213141516171819202122232425262728293031\
                     3233343536373839404142434445464748495051525354555657585960616263";

/// A field or a set by its number. Refused tables that are asked have few fields.
fn name_of(number: usize) -> &'static str {
    &NAMES[2 * number..][..2]
}

pub fn number_of(name: &str) -> usize {
    name.parse().expect("a name is a number")
}

/// A field as one that holds a number.
pub fn number_field(field: &Field) -> numbers::Field {
    numbers::Field {
        kind: field.kind,
        width: field.width.unwrap_or(1),
        signed: field.signed,
        scale: field.scale,
    }
}

/// The same for the descriptors of numbers. A width that no number has stands for one without a raw that is
/// "not available".
fn narrow_field(field: &Field) -> numbers::Field {
    let width = field.width.filter(|&width| width <= WIDTH_MAX);
    number_field(&Field { width, ..*field })
}

macro_rules! described_of {
    ($krate:ident, $types:ident) => {
        use super::{Field, name_of, narrow_field};
        use crate::oracle_types::$types::{descriptor, leaked};
        use ::$krate::core::{FieldDescriptor, PgnDescriptor, RepeatingFieldSet};
        use model::tables::{Set, Table};

        fn described_field((number, field): (usize, &Field)) -> FieldDescriptor {
            FieldDescriptor {
                id: name_of(number),
                bits_length: field.width,
                ..descriptor(&narrow_field(field))
            }
        }

        fn described_set((number, set): (usize, &Set)) -> RepeatingFieldSet {
            RepeatingFieldSet {
                array_id: name_of(number),
                count_field_index: Some(set.counter),
                start_field_index: set.start,
                size: set.size,
                max_repetitions: set.maximum,
            }
        }

        /// A table for the rest of the run.
        pub fn described(table: &Table) -> &'static PgnDescriptor {
            let fields = table.fields.iter().enumerate().map(described_field);
            let sets = table.sets.iter().enumerate().map(described_set);
            leaked(
                fields.collect(),
                sets.collect(),
                [table.length, table.minimum],
            )
        }
    };
}

pub mod rust {
    described_of!(korri_n2k, rust);
}

pub mod standin {
    described_of!(standin, standin);
}
