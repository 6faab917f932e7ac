//! The sizes that the boundary fixes.

/// The longest payload that is decoded or encoded, in bytes: what a fast-packet message can carry.
pub const PAYLOAD_MAX: usize = 223;

/// With room for so many readings no decode is refused with [`Refusal::NoRoom`](crate::Refusal::NoRoom).
pub const ROOM_ENOUGH: usize = 1785;

/// The longest buffer of a bit call, in bytes.
pub const BUFFER_MAX: usize = 65536;

/// The padding run, in bytes: where a payload is filled.
pub const PADDING_LENGTH: usize = 223;

/// A record, in bytes.
pub(crate) const RECORD: usize = 64;

/// A record of a value to be encoded, in bytes.
pub(crate) const VALUE: usize = 24;

/// The kind of a value that is a text or bytes.
pub(crate) const BYTES: u8 = 11;

/// Number i of a record: eight bytes, the low one first.
pub(crate) fn word_of(record: &[u8; RECORD], i: usize) -> u64 {
    let mut word = 0;
    for byte in record.iter().skip(8 * i).take(8).rev() {
        word = word << 8 | u64::from(*byte);
    }
    word
}
