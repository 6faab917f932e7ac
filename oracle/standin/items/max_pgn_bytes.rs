/// Document 01: a payload, and a string's length byte, is at most 223.
pub const MAX_PGN_BYTES: usize = 223;
