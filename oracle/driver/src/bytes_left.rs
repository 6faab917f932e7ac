//! Refusal 2 of a slice call. The Rust gives the end and the buffer's size, ours, by document 02, §2, the
//! length asked and the whole bytes left from the cursor. The one is turned into the other, so that both
//! numbers are still compared.

/// The length asked and the bytes left, of an end and a size in bytes, for a slice at this bit.
pub fn from_cursor(cursor: usize, end: usize, size: usize) -> (usize, usize) {
    let start = cursor / 8;
    (end.wrapping_sub(start), size.saturating_sub(start))
}
