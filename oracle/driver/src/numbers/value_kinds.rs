//! The kinds of value: their numbers and names, and what bits are a value of them.
use model::numbers::{NAN_32, NAN_64, Value, ValueKind, limits, meant};

/// The kind of a value as the C interface numbers it.
pub fn value_code(kind: ValueKind) -> u32 {
    kind as u32 + 1
}

/// The kind of value that a number is.
pub fn value_kind(code: u64) -> Option<ValueKind> {
    let mut kinds = VALUE_KINDS.into_iter();
    kinds.find(|&kind| u64::from(value_code(kind)) == code)
}

pub fn value_name(code: u64) -> String {
    match value_kind(code) {
        Some(kind) => format!("{kind:?}"),
        None => format!("kind {code}"),
    }
}

/// The kind of value that has a name.
pub fn value_kind_named(name: &str) -> Option<ValueKind> {
    let mut kinds = VALUE_KINDS.into_iter();
    kinds.find(|kind| format!("{kind:?}") == name)
}

pub const VALUE_KINDS: [ValueKind; 11] = [
    ValueKind::U64,
    ValueKind::U32,
    ValueKind::U16,
    ValueKind::U8,
    ValueKind::I64,
    ValueKind::I32,
    ValueKind::I16,
    ValueKind::I8,
    ValueKind::F64,
    ValueKind::F32,
    ValueKind::Bytes,
];

/// Whether a value is a NaN with other bits than the interface passes for it.
pub fn is_odd_nan(value: Value) -> bool {
    match value.kind {
        ValueKind::F32 => {
            f32::from_bits(value.bits as u32).is_nan() && value.bits != u64::from(NAN_32)
        }
        ValueKind::F64 => f64::from_bits(value.bits).is_nan() && value.bits != NAN_64,
        _ => false,
    }
}

/// Whether there is such a kind and 64 bits are a value of it. Any are a place of bytes.
pub fn is_value(code: u32, bits: u64) -> bool {
    match value_kind(code.into()) {
        Some(ValueKind::Bytes) => true,
        Some(kind) => is_of(kind, bits),
        None => false,
    }
}

/// Whether 64 bits are a number of the kind: none is cut to its low bits.
pub fn is_of(kind: ValueKind, bits: u64) -> bool {
    match kind {
        ValueKind::F64 => true,
        ValueKind::F32 => bits <= u32::MAX.into(),
        kind => {
            let (width, signed) = whole(kind).expect("the other kinds are integers");
            let (smallest, largest) = limits(width, signed);
            (smallest..=largest).contains(&meant(bits, 64, signed))
        }
    }
}

/// The width and the sign of an integer kind.
pub fn whole(kind: ValueKind) -> Option<(u32, bool)> {
    match kind {
        ValueKind::U64 => Some((64, false)),
        ValueKind::U32 => Some((32, false)),
        ValueKind::U16 => Some((16, false)),
        ValueKind::U8 => Some((8, false)),
        ValueKind::I64 => Some((64, true)),
        ValueKind::I32 => Some((32, true)),
        ValueKind::I16 => Some((16, true)),
        ValueKind::I8 => Some((8, true)),
        ValueKind::F64 | ValueKind::F32 | ValueKind::Bytes => None,
    }
}
