//! The readings that the Rust hands out, kept as a caller would who wants what it tells of each: a short
//! record, without the room for bytes that its own value has.
use korri_n2k::core::{Availability, FieldDescriptor, PgnDescriptor, PgnValue};
use korri_n2k::infra::codec::engine::{FieldReading, for_each_field};
use std::ptr;

#[derive(Clone, Copy, Debug, Default, PartialEq, Eq)]
pub struct Kept {
    pub field: usize,
    pub element: Option<usize>,
    pub raw: Option<u64>,
    pub kind: u8,
    pub bits: u64,
    pub is_available: bool,
}

/// The readings kept in the first records, and how many they are; none if one finds no room.
#[inline(never)]
pub fn keep(table: &'static PgnDescriptor, payload: &[u8], records: &mut [Kept]) -> Option<usize> {
    let mut count = 0;
    for_each_field(table, payload, |field, reading| {
        if let Some(record) = records.get_mut(count) {
            *record = kept(table, field, &reading);
        }
        count += 1;
    })
    .ok()?;
    (count <= records.len()).then_some(count)
}

fn kept(table: &PgnDescriptor, field: &FieldDescriptor, reading: &FieldReading) -> Kept {
    let offset = ptr::from_ref(field).addr() - table.fields.as_ptr().addr();
    let (kind, bits) = kind_and_bits(&reading.value);
    Kept {
        field: offset / size_of::<FieldDescriptor>(),
        element: reading.repetition.map(|(_, element)| element),
        raw: reading.raw,
        kind,
        bits,
        is_available: reading.availability == Availability::Available,
    }
}

/// The kinds count from 1, as ours do.
fn kind_and_bits(value: &PgnValue) -> (u8, u64) {
    match *value {
        PgnValue::U64(v) => (1, v),
        PgnValue::U32(v) => (2, v.into()),
        PgnValue::U16(v) => (3, v.into()),
        PgnValue::U8(v) => (4, v.into()),
        PgnValue::I64(v) => (5, v as u64),
        PgnValue::I32(v) => (6, v as u64),
        PgnValue::I16(v) => (7, v as u64),
        PgnValue::I8(v) => (8, v as u64),
        PgnValue::F64(v) => (9, v.to_bits()),
        PgnValue::F32(v) => (10, v.to_bits().into()),
        PgnValue::Bytes(_) | PgnValue::Ignored => (11, 0),
    }
}
