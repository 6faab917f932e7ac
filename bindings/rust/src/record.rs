//! A reading as the library lays it out.

use crate::layout::{word_of, RECORD};

/// The element of a record that is in no set.
const NO_ELEMENT: u64 = u64::MAX;

/// A reading as the library stores it: the header's `struct samopute_reading`, member by member. A
/// [`Reading`](crate::Reading) has the same with types.
#[repr(C)]
#[derive(Clone, Copy, Debug, Default, PartialEq, Eq)]
pub struct Record {
    /// The field, counted from 0.
    pub field: u64,
    /// The element of its set, counted from 0; `u64::MAX` outside sets.
    pub element: u64,
    /// Its first bit in the working payload.
    pub start: u64,
    /// The bits that it takes.
    pub bits: u64,
    /// 0 if it says something, else 1.
    pub availability: u8,
    /// The kind of the value: 1 to 8 for `U64`, `U32`, `U16`, `U8`, `I64`, `I32`, `I16`, `I8`, 9 for `F64`, 10 for `F32`, 11
    /// for bytes.
    pub value_kind: u8,
    /// 1 if `raw` is one: texts and whole bytes have none.
    pub has_raw: u8,
    /// 1 if `encoding` is one: a StringLau with an encoding byte.
    pub has_encoding: u8,
    /// The encoding byte, 0 if there is none.
    pub encoding: u8,
    /// 0.
    pub reserved: [u8; 3],
    /// The number in its bits, 0 if there is none.
    pub raw: u64,
    /// A number's bits, or the first byte in the working payload.
    pub value: u64,
    /// How many bytes; 0 of a number.
    pub length: u64,
}

// The library stores 64 bytes, and each of them is a member's.
const _: () = assert!(size_of::<Record>() == RECORD && align_of::<Record>() == align_of::<u64>());

impl Record {
    /// The record in these bytes, each number with the low byte first.
    pub(crate) fn of(bytes: &[u8; RECORD]) -> Record {
        let [availability, value_kind, has_raw, has_encoding, encoding, reserved @ ..] =
            word_of(bytes, 4).to_le_bytes();
        Record {
            field: word_of(bytes, 0),
            element: word_of(bytes, 1),
            start: word_of(bytes, 2),
            bits: word_of(bytes, 3),
            availability,
            value_kind,
            has_raw,
            has_encoding,
            encoding,
            reserved,
            raw: word_of(bytes, 5),
            value: word_of(bytes, 6),
            length: word_of(bytes, 7),
        }
    }

    /// The element, if it is in a set.
    pub(crate) fn in_set(&self) -> Option<u64> {
        Some(self.element).filter(|element| *element != NO_ELEMENT)
    }
}
