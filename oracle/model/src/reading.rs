//! Document 01's "Reading a payload": the working payload, the walk over the fields, and what each kind
//! of field reads. A walk stops at the first refusal and keeps the readings made before.
use crate::numbers::{self, Kind, Value};
use crate::tables::{self, Broken, Field, PAYLOAD_MAX, Table};
use crate::{Refusal, WIDTH_MAX, advance, bits_remaining, read, read_slice};

/// The padding run that the caller lends, and the largest length byte of a text.
pub const PADDING: usize = 223;
pub const LENGTH_BYTE_MAX: u64 = 223;

/// A StringFix of more bytes than this may stop early where it is the last field.
pub const FIXED_TEXT_MAX: usize = 32;

/// The bytes that end a StringFix's text.
const TEXT_ENDS: [u8; 3] = [0xFF, 0x40, 0x00];

#[derive(Clone, Debug, PartialEq, Eq)]
pub struct Reading {
    pub field: usize,
    pub element: Option<usize>,
    /// In bits.
    pub start: usize,
    pub bits: usize,
    pub content: Content,
    pub available: bool,
}

#[derive(Clone, Copy, Debug, PartialEq, Eq)]
pub enum Content {
    Number {
        raw: u64,
        value: Value,
    },
    /// A place in the working payload, 0 if there are no bytes; the encoding byte of a StringLau.
    Bytes {
        place: usize,
        length: usize,
        encoding: Option<u8>,
    },
}

/// The refusals of a decode, with what they carry.
#[derive(Clone, Copy, Debug, PartialEq, Eq)]
pub enum Fault {
    /// 1 to 3.
    Bits { field: usize, refusal: Refusal },
    /// 4: a number cut short, or a length byte that is too large.
    Cut { field: usize },
    /// 5.
    Elements {
        set: usize,
        count: u64,
        maximum: usize,
    },
    /// 7: of the payload, or of the padding run.
    Length(usize),
    /// 8.
    Table(Broken),
    /// 9.
    NoRoom { field: usize },
}

impl Fault {
    /// The paper's number.
    pub fn number(self) -> u32 {
        match self {
            Fault::Bits { refusal, .. } => refusal.number(),
            Fault::Cut { .. } => 4,
            Fault::Elements { .. } => 5,
            Fault::Length(_) => 7,
            Fault::Table(_) => 8,
            Fault::NoRoom { .. } => 9,
        }
    }
}

#[derive(Clone, Debug, PartialEq, Eq)]
pub struct Decoded {
    pub readings: Vec<Reading>,
    /// Where the walk ended or, at a refusal, the start of what it was at, in bits.
    pub cursor: usize,
    pub outcome: Result<(), Fault>,
}

/// The readings of a payload, as many as find room. The padding run is changed where filling applies.
pub fn decode(table: &Table, payload: &[u8], padding: &mut [u8], room: u64) -> Decoded {
    if let Err(fault) = admitted(table, payload, padding) {
        return Decoded {
            readings: Vec::new(),
            cursor: 0,
            outcome: Err(fault),
        };
    }
    let payload = match filled_length(table, payload.len()) {
        Some(length) => fill(payload, &mut padding[..length]),
        None => payload,
    };
    let mut walk = Walk {
        table,
        payload,
        room,
        cursor: 0,
        readings: Vec::new(),
    };
    let outcome = walk.run();
    Decoded {
        readings: walk.readings,
        cursor: walk.cursor,
        outcome,
    }
}

/// What comes before the walk and touches no buffer. Order: 7, the payload's first, then 8.
fn admitted(table: &Table, payload: &[u8], padding: &[u8]) -> Result<(), Fault> {
    if payload.len() > PAYLOAD_MAX {
        return Err(Fault::Length(payload.len()));
    }
    if padding.len() != PADDING {
        return Err(Fault::Length(padding.len()));
    }
    tables::check(table).map_err(Fault::Table)
}

/// "With minimum ≤ received < length, the working payload is filled to the length with 0xFF."
pub fn filled_length(table: &Table, received: usize) -> Option<usize> {
    let (minimum, length) = (table.minimum?, table.length?);
    (minimum <= received && received < length).then_some(length)
}

fn fill<'a>(payload: &[u8], run: &'a mut [u8]) -> &'a [u8] {
    for (i, byte) in run.iter_mut().enumerate() {
        *byte = payload.get(i).copied().unwrap_or(0xFF);
    }
    run
}

struct Walk<'a> {
    table: &'a Table,
    /// The working payload.
    payload: &'a [u8],
    room: u64,
    cursor: usize,
    readings: Vec<Reading>,
}

/// Why a field cannot be read: 1 to 3, or 4.
enum Unread {
    Bits(Refusal),
    Cut,
}

impl From<Refusal> for Unread {
    fn from(refusal: Refusal) -> Unread {
        Unread::Bits(refusal)
    }
}

impl Walk<'_> {
    /// The fields in order. A set is read where it starts, its other fields with it.
    fn run(&mut self) -> Result<(), Fault> {
        for field in 0..self.table.fields.len() {
            let sets = &self.table.sets;
            match sets.iter().position(|set| set.start == field) {
                Some(set) => self.set(set)?,
                None if self.table.in_a_set(field) => {}
                None => self.field(field, None)?,
            }
        }
        Ok(())
    }

    fn set(&mut self, set: usize) -> Result<(), Fault> {
        for element in 0..self.count(set)? {
            for field in self.table.sets[set].range() {
                self.field(field, Some(element as usize))?;
            }
        }
        Ok(())
    }

    /// "The counter's raw, 0 if all ones; then the smaller of it and bits left div the set's declared
    /// bits; then refusal 5 if over the maximum."
    fn count(&self, number: usize) -> Result<u64, Fault> {
        let set = &self.table.sets[number];
        let declared: usize = (self.table.fields[set.range()].iter())
            .map(|field| field.width.unwrap_or(0) as usize)
            .sum();
        let fits = bits_remaining(self.payload.len(), self.cursor) / declared;
        let count = self.elements(set.counter).min(fits as u64);
        if count > set.maximum as u64 {
            return Err(Fault::Elements {
                set: number,
                count,
                maximum: set.maximum,
            });
        }
        Ok(count)
    }

    /// The elements that a counter means. Rule h has it precede its set, outside all, so it was read.
    fn elements(&self, counter: usize) -> u64 {
        let mut read = self.readings.iter().filter(|one| one.field == counter);
        match read.next().map(|reading| reading.content) {
            Some(Content::Number { raw, .. }) => {
                numbers::elements(width_of(&self.table.fields[counter]), raw)
            }
            _ => unreachable!("a counter is a number before its set"),
        }
    }

    /// A field, outside a set or of an element. The read is refused before the room.
    fn field(&mut self, field: usize, element: Option<usize>) -> Result<(), Fault> {
        let start = self.cursor;
        let last = element.is_none() && field + 1 == self.table.fields.len();
        let described = &self.table.fields[field];
        let read =
            content(described, last, self.payload, start).map_err(|unread| match unread {
                Unread::Bits(refusal) => Fault::Bits { field, refusal },
                Unread::Cut => Fault::Cut { field },
            })?;
        if let Some(content) = read.content {
            if self.readings.len() as u64 >= self.room {
                return Err(Fault::NoRoom { field });
            }
            self.readings.push(Reading {
                field,
                element,
                start,
                bits: read.end - start,
                content,
                available: is_available(described, content, self.payload),
            });
        }
        self.cursor = read.end;
        Ok(())
    }
}

/// What a field holds, nothing if it is skipped, and where it ends.
struct Read {
    content: Option<Content>,
    end: usize,
}

/// What stands in a field that starts at the cursor. `last` is the last of the table, outside a set.
fn content(field: &Field, last: bool, payload: &[u8], cursor: usize) -> Result<Read, Unread> {
    match field.kind {
        Kind::Reserved | Kind::Spare => Ok(Read {
            content: None,
            end: advance(payload.len(), cursor, width_of(field))?,
        }),
        Kind::BitLookup
        | Kind::Number
        | Kind::Lookup
        | Kind::IndirectLookup
        | Kind::Pgn
        | Kind::IsoName => number(field, payload, cursor).map_err(|_| Unread::Cut),
        Kind::StringFix => fixed_text(field, last, payload, cursor),
        Kind::StringLz => ended_text(payload, cursor),
        Kind::StringLau => encoded_text(payload, cursor),
        Kind::Binary if width_of(field).is_multiple_of(8) => {
            bytes(payload, cursor, width_of(field) as usize / 8, None)
        }
        _ => Ok(number(field, payload, cursor)?),
    }
}

fn number(field: &Field, payload: &[u8], cursor: usize) -> Result<Read, Refusal> {
    let (raw, end) = read(payload, cursor, width_of(field), WIDTH_MAX)?;
    let value = numbers::value(&number_field(field), raw);
    Ok(Read {
        content: Some(Content::Number { raw, value }),
        end,
    })
}

/// "StringFix over 32 bytes as the last field of the table, outside a set, takes the smaller of its
/// size and the whole bytes left." It always needs alignment, even for no byte.
fn fixed_text(field: &Field, last: bool, payload: &[u8], cursor: usize) -> Result<Read, Unread> {
    let size = width_of(field) as usize / 8;
    let left = bits_remaining(payload.len(), cursor) / 8;
    let may_stop = last && size > FIXED_TEXT_MAX;
    let taken = if may_stop { size.min(left) } else { size };
    bytes(payload, cursor, taken, None)
}

/// "StringLz: length byte, text, and one more byte if 8 bits remain and it is zero."
fn ended_text(payload: &[u8], cursor: usize) -> Result<Read, Unread> {
    let (length, cursor) = length_byte(payload, cursor)?;
    let text = text(payload, cursor, length, None)?;
    let end = match read(payload, text.end, 8, WIDTH_MAX) {
        Ok((0, end)) => end,
        _ => text.end,
    };
    Ok(Read { end, ..text })
}

/// "StringLau: length 0 or 1 is empty and takes 8 bits; otherwise an encoding byte and length - 2 of
/// text."
fn encoded_text(payload: &[u8], cursor: usize) -> Result<Read, Unread> {
    let (length, cursor) = length_byte(payload, cursor)?;
    if length < 2 {
        return text(payload, cursor, 0, None);
    }
    let (encoding, cursor) = read(payload, cursor, 8, WIDTH_MAX)?;
    text(payload, cursor, length - 2, Some(encoding as u8))
}

/// A text's length byte, and where it ends.
fn length_byte(payload: &[u8], cursor: usize) -> Result<(usize, usize), Unread> {
    let (length, end) = read(payload, cursor, 8, WIDTH_MAX)?;
    if length > LENGTH_BYTE_MAX {
        return Err(Unread::Cut);
    }
    Ok((length as usize, end))
}

/// "An empty LZ or LAU text needs no alignment."
fn text(
    payload: &[u8],
    cursor: usize,
    length: usize,
    encoding: Option<u8>,
) -> Result<Read, Unread> {
    if length > 0 {
        return bytes(payload, cursor, length, encoding);
    }
    Ok(Read {
        content: Some(Content::Bytes {
            place: 0,
            length,
            encoding,
        }),
        end: cursor,
    })
}

fn bytes(
    payload: &[u8],
    cursor: usize,
    length: usize,
    encoding: Option<u8>,
) -> Result<Read, Unread> {
    let (start, end) = read_slice(payload.len(), cursor, length)?;
    let content = Content::Bytes {
        place: if length == 0 { 0 } else { start },
        length,
        encoding,
    };
    Ok(Read {
        content: Some(content),
        end,
    })
}

/// "Not available: a StringFix empty up to the first 0xFF, 0x40 or 0x00; NaN in Float; LAU with no
/// text; empty LZ", and some raws of numbers. "All else is available."
fn is_available(field: &Field, content: Content, payload: &[u8]) -> bool {
    match (field.kind, content) {
        (_, Content::Number { raw, .. }) => numbers::is_available(&number_field(field), raw),
        (Kind::StringFix, Content::Bytes { place, length, .. }) => {
            length > 0 && !TEXT_ENDS.contains(&payload[place])
        }
        (Kind::StringLz | Kind::StringLau, Content::Bytes { length, .. }) => length > 0,
        (_, Content::Bytes { .. }) => true,
    }
}

/// Rule c gives a width to every kind but StringLz and StringLau.
pub(crate) fn width_of(field: &Field) -> u32 {
    field.width.expect("rule c")
}

pub(crate) fn number_field(field: &Field) -> numbers::Field {
    numbers::Field {
        kind: field.kind,
        width: width_of(field),
        signed: field.signed,
        scale: field.scale,
    }
}
