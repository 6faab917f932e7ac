//! The refusals, by the numbers of document 01.

use core::error::Error;
use core::fmt;

/// Why a call was refused. Fields and sets are counted from 0.
#[derive(Clone, Copy, Debug, PartialEq, Eq)]
#[non_exhaustive]
pub enum Refusal {
    /// 1: width 0, or over the call's maximum.
    Width {
        /// The field, if it was a decode or an encode.
        field: Option<u64>,
        /// The call's maximum; 64 for width 0.
        maximum: u64,
        /// The width that was asked.
        width: u64,
    },
    /// 2, of bits: a number, a skipped field, or a text's length or encoding byte lies beyond the buffer. An encode, and the
    /// calls on numbers of a [`BitReader`](crate::BitReader) and a [`BitWriter`](crate::BitWriter), give this one.
    BeyondBits {
        /// The field, if it was a decode or an encode.
        field: Option<u64>,
        /// The bits that were asked: in an encode those of the whole field.
        asked: u64,
        /// The bits that are left.
        available: u64,
    },
    /// 2, of bytes: a text or bytes would end beyond the buffer. A decode and the slice calls give this one.
    BeyondBytes {
        /// The field, if it was a decode.
        field: Option<u64>,
        /// The bytes that were asked for: of a text, those behind its length and encoding byte.
        asked: u64,
        /// The whole bytes left from where they would begin, fewer than asked; 0 and 0 for an empty slice past the end.
        available: u64,
    },
    /// 3: a byte slice at a cursor that is no multiple of 8.
    Unaligned {
        /// The field, if it was a decode or an encode.
        field: Option<u64>,
        /// The cursor, in bits.
        cursor: u64,
    },
    /// 4: a number field is cut short, or a string's length byte is over 223.
    CutShort {
        /// The field.
        field: u64,
    },
    /// 5: a set has more elements than its maximum.
    TooManyElements {
        /// The set.
        set: u64,
        /// The elements that it has.
        count: u64,
        /// The elements that it may have.
        maximum: u64,
    },
    /// 6: a bit call on a buffer over 65,536 bytes.
    BufferTooLong {
        /// The buffer's length in bytes.
        length: u64,
    },
    /// 7: a payload, or a buffer for one, over 223 bytes.
    WrongLength {
        /// The payload's length in bytes.
        length: u64,
    },
    /// 8: the table is refused.
    TableRefused {
        /// The first rule that is broken.
        rule: Rule,
        /// The lowest field or set that breaks it; 0 for rule a.
        index: u64,
    },
    /// 9: a reading finds no room.
    NoRoom {
        /// The field.
        field: u64,
    },
    /// 10: a value is out of its field's range.
    OutOfRange {
        /// The field, if it was an encode.
        field: Option<u64>,
    },
    /// 11: a value of another kind than the field takes.
    OtherKind {
        /// The field, if it was an encode.
        field: Option<u64>,
    },
    /// 12: a value is missing, or values are left over.
    ValueCount {
        /// The field that has no value; the number of fields, if values are left over.
        field: u64,
    },
    /// 13: a text is too long for its field, or bytes are not of a Binary's width.
    TextTooLong {
        /// The field.
        field: u64,
    },
    /// 15: a PGN that is not built in.
    UnknownPgn {
        /// The PGN.
        pgn: u64,
    },
    /// A number that this crate does not know. The library that it is for answers none.
    Other {
        /// The number.
        number: u32,
        /// What it carries.
        carried: [u64; 3],
    },
}

/// What refusal 2 counts.
#[derive(Clone, Copy)]
pub(crate) enum Unit {
    Bits,
    Bytes,
}

impl Unit {
    /// By its bits; none where nothing is counted.
    pub(crate) const fn of(bits: u64) -> Option<Unit> {
        match bits {
            1 => Some(Unit::Bits),
            8 => Some(Unit::Bytes),
            _ => None,
        }
    }

    /// Refusal 2 in this unit.
    const fn beyond(self, field: Option<u64>, asked: u64, available: u64) -> Refusal {
        match self {
            Unit::Bits => Refusal::BeyondBits {
                field,
                asked,
                available,
            },
            Unit::Bytes => Refusal::BeyondBytes {
                field,
                asked,
                available,
            },
        }
    }
}

/// The rules that a table is held to, in the order in which they are checked.
#[derive(Clone, Copy, Debug, PartialEq, Eq, PartialOrd, Ord)]
pub enum Rule {
    /// 1 to 64 fields, at most 4 sets; length and minimum, if given, 1 to 223, minimum not above length.
    A,
    /// A kind that can be read: not Decimal, not Unimplemented.
    B,
    /// The width is one that the kind takes.
    C,
    /// A resolution only where one may be, from 2^-64 to 2^20, and with a mark of its own, single or double; no other mark.
    D,
    /// Signed only where it may be; Date and Mmsi without resolution of 16 or 32 bits.
    E,
    /// StringLz only as the last field, outside a set.
    F,
    /// Sets ascend, do not overlap, lie in the table, hold a field with a width; size at least 1, maximum 1 to 255.
    G,
    /// Each set has a counter before it, in no set: a Number or Lookup, unsigned, unscaled, of 1 to 32 bits.
    H,
}

const RULES: [Rule; 8] = [
    Rule::A,
    Rule::B,
    Rule::C,
    Rule::D,
    Rule::E,
    Rule::F,
    Rule::G,
    Rule::H,
];

impl Rule {
    /// The rule's letter, `a` to `h`.
    pub const fn letter(self) -> char {
        (b'a' + self as u8) as char
    }

    /// By its place in the alphabet, 1 for a.
    fn of(place: u64) -> Option<Rule> {
        let i = usize::try_from(place).ok()?.checked_sub(1)?;
        RULES.get(i).copied()
    }
}

impl Refusal {
    /// Document 01's number.
    pub const fn number(&self) -> u32 {
        match self {
            Refusal::Width { .. } => 1,
            Refusal::BeyondBits { .. } | Refusal::BeyondBytes { .. } => 2,
            Refusal::Unaligned { .. } => 3,
            Refusal::CutShort { .. } => 4,
            Refusal::TooManyElements { .. } => 5,
            Refusal::BufferTooLong { .. } => 6,
            Refusal::WrongLength { .. } => 7,
            Refusal::TableRefused { .. } => 8,
            Refusal::NoRoom { .. } => 9,
            Refusal::OutOfRange { .. } => 10,
            Refusal::OtherKind { .. } => 11,
            Refusal::ValueCount { .. } => 12,
            Refusal::TextTooLong { .. } => 13,
            Refusal::UnknownPgn { .. } => 15,
            Refusal::Other { number, .. } => *number,
        }
    }

    /// A status over 0 of an encode: 10 to 13 carry the field too, and 2 counts bits.
    pub(crate) fn of_encode(status: u32, carried: [u64; 3]) -> Refusal {
        let [field, _, _] = carried;
        match status {
            10 => Refusal::OutOfRange { field: Some(field) },
            11 => Refusal::OtherKind { field: Some(field) },
            12 => Refusal::ValueCount { field },
            13 => Refusal::TextTooLong { field },
            _ => Refusal::of_decode(status, carried, Some(Unit::Bits)),
        }
    }

    /// A status over 0 of a decode: 1 to 3 carry the field first, and 2 counts in this unit.
    pub(crate) fn of_decode(status: u32, carried: [u64; 3], unit: Option<Unit>) -> Refusal {
        let [a, b, c] = carried;
        match (status, unit) {
            (1, _) => Refusal::Width {
                field: Some(a),
                maximum: b,
                width: c,
            },
            (2, Some(unit)) => unit.beyond(Some(a), b, c),
            (3, _) => Refusal::Unaligned {
                field: Some(a),
                cursor: b,
            },
            (4, _) => Refusal::CutShort { field: a },
            (5, _) => Refusal::TooManyElements {
                set: a,
                count: b,
                maximum: c,
            },
            (9, _) => Refusal::NoRoom { field: a },
            _ => Refusal::of_call(status, carried),
        }
    }

    /// A status over 0 of a bit call, whose 2 counts in this unit.
    pub(crate) fn of_bit_call(status: u32, carried: [u64; 2], unit: Unit) -> Refusal {
        let [a, b] = carried;
        match status {
            2 => unit.beyond(None, a, b),
            _ => Refusal::of_call(status, [a, b, 0]),
        }
    }

    /// A status over 0 of any other call: none of them gives 2.
    pub(crate) fn of_call(status: u32, carried: [u64; 3]) -> Refusal {
        let [a, b, _] = carried;
        let other = Refusal::Other {
            number: status,
            carried,
        };
        match status {
            1 => Refusal::Width {
                field: None,
                maximum: a,
                width: b,
            },
            3 => Refusal::Unaligned {
                field: None,
                cursor: a,
            },
            6 => Refusal::BufferTooLong { length: a },
            7 => Refusal::WrongLength { length: a },
            8 => match Rule::of(a) {
                Some(rule) => Refusal::TableRefused { rule, index: b },
                None => other,
            },
            10 => Refusal::OutOfRange { field: None },
            11 => Refusal::OtherKind { field: None },
            15 => Refusal::UnknownPgn { pgn: a },
            _ => other,
        }
    }
}

/// ` in field 3`, or nothing.
struct InField(Option<u64>);

impl fmt::Display for InField {
    fn fmt(&self, f: &mut fmt::Formatter<'_>) -> fmt::Result {
        match self.0 {
            Some(field) => write!(f, " in field {field}"),
            None => Ok(()),
        }
    }
}

impl fmt::Display for Refusal {
    fn fmt(&self, f: &mut fmt::Formatter<'_>) -> fmt::Result {
        write!(f, "refusal {}: ", self.number())?;
        match self {
            Refusal::Width {
                field,
                maximum,
                width,
            } => {
                write!(
                    f,
                    "a width of {width}, where 1 to {maximum} can be had{}",
                    InField(*field)
                )
            }
            Refusal::BeyondBits {
                field,
                asked,
                available,
            } => {
                write!(
                    f,
                    "beyond the buffer: {asked} bits asked, {available} available{}",
                    InField(*field)
                )
            }
            Refusal::BeyondBytes {
                field,
                asked,
                available,
            } => {
                write!(
                    f,
                    "beyond the buffer: {asked} bytes asked, {available} available{}",
                    InField(*field)
                )
            }
            Refusal::Unaligned { field, cursor } => {
                write!(
                    f,
                    "bytes at bit {cursor}, which is no multiple of 8{}",
                    InField(*field)
                )
            }
            Refusal::CutShort { field } => write!(f, "field {field} is cut short"),
            Refusal::TooManyElements {
                set,
                count,
                maximum,
            } => {
                write!(f, "set {set} has {count} elements, of at most {maximum}")
            }
            Refusal::BufferTooLong { length } => {
                write!(f, "a buffer of {length} bytes, of at most 65536")
            }
            Refusal::WrongLength { length } => {
                write!(f, "a payload of {length} bytes, of at most 223")
            }
            Refusal::TableRefused { rule, index } => {
                write!(f, "the table breaks rule {} at {index}", rule.letter())
            }
            Refusal::NoRoom { field } => write!(f, "no room for the reading of field {field}"),
            Refusal::OutOfRange { field } => {
                write!(f, "a value out of its field's range{}", InField(*field))
            }
            Refusal::OtherKind { field } => {
                write!(
                    f,
                    "a value of another kind than the field takes{}",
                    InField(*field)
                )
            }
            Refusal::ValueCount { field } => {
                write!(f, "values are missing or left over, at field {field}")
            }
            Refusal::TextTooLong { field } => {
                write!(f, "text or bytes that field {field} does not hold")
            }
            Refusal::UnknownPgn { pgn } => write!(f, "PGN {pgn} is not built in"),
            Refusal::Other { carried, .. } => write!(f, "carries {carried:?}"),
        }
    }
}

impl Error for Refusal {}
