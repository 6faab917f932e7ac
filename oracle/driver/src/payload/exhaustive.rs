//! Small tables that are gone through one by one.
use crate::tables::built_in::{field, number, set, signed, table};
use model::tables::{self, Field, Table};

/// A field behind a number of so many bits, if there are any.
pub fn after(width: u32, field: Field) -> Vec<Field> {
    match width {
        0 => vec![field],
        width => vec![number(width), field],
    }
}

/// Every kind at every width that is accepted, signed and not, aligned and not: the table, the field, and the
/// bits before it.
pub fn every_kind(mut each: impl FnMut(&Table, &Field, u32)) {
    for kind in tables::KINDS {
        for width in 1..=tables::BYTES_WIDTH_MAX {
            for described in [field(kind, width), signed(field(kind, width))] {
                for before in [0, 3] {
                    let table = table(&after(before, described), &[]);
                    if tables::check(&table).is_ok() {
                        each(&table, &described, before);
                    }
                }
            }
        }
    }
}

/// Every counter of up to `most` bits, of a set of one number: the table, both widths, and the raw.
pub fn every_counter(most: u32, mut each: impl FnMut(&Table, [u32; 2], u64)) {
    for counter in 1..=most {
        for width in [1, 7, 8, 12] {
            for maximum in [1, 2, 255] {
                let fields = [number(counter), number(width)];
                let table = table(&fields, &[set(1, 1, 0, maximum)]);
                for raw in 0..1u64 << counter {
                    each(&table, [counter, width], raw);
                }
            }
        }
    }
}
