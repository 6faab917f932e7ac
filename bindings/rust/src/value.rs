//! Values, and whether a field says something.

/// Whether a field says something.
#[derive(Clone, Copy, Debug, PartialEq, Eq)]
#[non_exhaustive]
pub enum Availability {
    /// It says something.
    Available,
    /// It says "not available".
    NotAvailable,
    /// A state that this crate does not know, by its number. The library that it is for answers none.
    Other(u64),
}

impl Availability {
    pub(crate) const fn of(code: u64) -> Availability {
        match code {
            0 => Availability::Available,
            1 => Availability::NotAvailable,
            other => Availability::Other(other),
        }
    }
}

/// The value of a field.
#[derive(Clone, Copy, Debug, PartialEq)]
pub enum Value<'a> {
    /// An unsigned number.
    U64(u64),
    /// An unsigned number.
    U32(u32),
    /// An unsigned number.
    U16(u16),
    /// An unsigned number.
    U8(u8),
    /// A signed number.
    I64(i64),
    /// A signed number.
    I32(i32),
    /// A signed number.
    I16(i16),
    /// A signed number.
    I8(i8),
    /// A scaled number.
    F64(f64),
    /// A scaled number, or a Float.
    F32(f32),
    /// A text or whole bytes, where they stand in the working payload.
    Bytes {
        /// The bytes. Those of a StringFix may have an end in them: 0xFF, 0x40 or 0x00.
        bytes: &'a [u8],
        /// The encoding byte of a StringLau, if one was read.
        encoding: Option<u8>,
    },
}

impl<'a> Value<'a> {
    /// A number by its kind's code and its bits; nothing for a kind that is no number's.
    pub(crate) fn number(code: u32, bits: u64) -> Option<Value<'static>> {
        // A narrow number stands in 64 bits as itself, so cutting it keeps it.
        Some(match code {
            1 => Value::U64(bits),
            2 => Value::U32(bits as u32),
            3 => Value::U16(bits as u16),
            4 => Value::U8(bits as u8),
            5 => Value::I64(bits as i64),
            6 => Value::I32(bits as i32),
            7 => Value::I16(bits as i16),
            8 => Value::I8(bits as i8),
            9 => Value::F64(f64::from_bits(bits)),
            10 => Value::F32(f32::from_bits(bits as u32)),
            _ => return None,
        })
    }

    /// The kind's code and the bits; bytes have none.
    pub(crate) fn code(self) -> (u32, u64) {
        match self {
            Value::U64(n) => (1, n),
            Value::U32(n) => (2, n.into()),
            Value::U16(n) => (3, n.into()),
            Value::U8(n) => (4, n.into()),
            Value::I64(n) => (5, n as u64),
            Value::I32(n) => (6, i64::from(n) as u64),
            Value::I16(n) => (7, i64::from(n) as u64),
            Value::I8(n) => (8, i64::from(n) as u64),
            Value::F64(x) => (9, x.to_bits()),
            Value::F32(x) => (10, x.to_bits().into()),
            Value::Bytes { .. } => (11, 0),
        }
    }

    /// An integer, if an `i64` holds it.
    pub fn as_i64(self) -> Option<i64> {
        match self {
            Value::U64(n) => i64::try_from(n).ok(),
            Value::U32(n) => Some(n.into()),
            Value::U16(n) => Some(n.into()),
            Value::U8(n) => Some(n.into()),
            Value::I64(n) => Some(n),
            Value::I32(n) => Some(n.into()),
            Value::I16(n) => Some(n.into()),
            Value::I8(n) => Some(n.into()),
            Value::F64(_) | Value::F32(_) | Value::Bytes { .. } => None,
        }
    }

    /// A number of any kind. One over 2^53 is rounded.
    pub fn as_f64(self) -> Option<f64> {
        match self {
            Value::U64(n) => Some(n as f64),
            Value::F64(x) => Some(x),
            Value::F32(x) => Some(x.into()),
            Value::Bytes { .. } => None,
            whole => whole.as_i64().map(|n| n as f64),
        }
    }

    /// The bytes of a text or of whole bytes.
    pub fn as_bytes(self) -> Option<&'a [u8]> {
        match self {
            Value::Bytes { bytes, .. } => Some(bytes),
            _ => None,
        }
    }
}
