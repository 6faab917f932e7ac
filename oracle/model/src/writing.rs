//! Document 01's "Writing a payload": values in walk order, what each kind of field takes, and what the
//! buffer holds after. A field is made as a whole, held against the buffer, and only then put.
use crate::numbers::{self, Kind, Value};
use crate::reading::{number_field, width_of};
use crate::tables::{self, Broken, Field, PAYLOAD_MAX, Table};
use crate::{Refusal, bits_remaining, put_bit};

/// The longest text of a StringLz or a StringLau, in bytes.
pub const TEXT_MAX: u64 = 221;

/// What fills a StringFix, and a buffer before the first field.
const FILL: u8 = 0xFF;

/// A value as its caller gives it.
#[derive(Clone, Copy, Debug, PartialEq, Eq)]
pub enum Given {
    Number(Value),
    /// Text or bytes: a place in the lent text, a length, and an encoding byte or none.
    Bytes {
        place: u64,
        length: u64,
        encoding: Option<u8>,
    },
    /// What is no value of any kind.
    Nothing,
}

/// A field that is wholly written.
#[derive(Clone, Debug, PartialEq, Eq)]
pub struct Written {
    pub field: usize,
    pub element: Option<usize>,
    /// In bits.
    pub start: usize,
    pub bits: usize,
    pub content: Content,
}

#[derive(Clone, Debug, PartialEq, Eq)]
pub enum Content {
    /// Reserved or Spare.
    Skipped,
    Number {
        raw: u64,
    },
    /// What a reading of the field has: a StringFix with its fill.
    Bytes {
        bytes: Vec<u8>,
        encoding: Option<u8>,
    },
}

/// The refusals of an encode, with what they carry.
#[derive(Clone, Copy, Debug, PartialEq, Eq)]
pub enum Fault {
    /// 1 to 3.
    Bits { field: usize, refusal: Refusal },
    /// 5.
    Elements {
        set: usize,
        count: u64,
        maximum: usize,
    },
    /// 7: of the buffer.
    Length(usize),
    /// 8.
    Table(Broken),
    /// 10.
    OutOfRange { field: usize },
    /// 11.
    OtherKind { field: usize },
    /// 12: the field that lacks a value or, where values are left over, the number of fields.
    Values(usize),
    /// 13.
    TooLong { field: usize },
}

impl Fault {
    /// The paper's number.
    pub fn number(self) -> u32 {
        match self {
            Fault::Bits { refusal, .. } => refusal.number(),
            Fault::Elements { .. } => 5,
            Fault::Length(_) => 7,
            Fault::Table(_) => 8,
            Fault::OutOfRange { .. } => 10,
            Fault::OtherKind { .. } => 11,
            Fault::Values(_) => 12,
            Fault::TooLong { .. } => 13,
        }
    }
}

#[derive(Clone, Debug, PartialEq, Eq)]
pub struct Encoded {
    /// The fields met before the end or before the refusal.
    pub written: Vec<Written>,
    /// Where the walk ended or, at a refusal, the start of what it was at, in bits.
    pub cursor: usize,
    pub outcome: Result<(), Fault>,
}

impl Encoded {
    /// "The result is bytes used, rounded up."
    pub fn used(&self) -> usize {
        self.cursor.div_ceil(8)
    }
}

/// Writes values into a buffer. Order: 7, 8, then the walk; left-over values last.
pub fn encode(table: &Table, values: &[Given], text: &[u8], buffer: &mut [u8]) -> Encoded {
    if let Err(fault) = admitted(table, buffer) {
        return Encoded {
            written: Vec::new(),
            cursor: 0,
            outcome: Err(fault),
        };
    }
    // "Skipped fields stay ones"; "all bits after are ones".
    buffer.fill(FILL);
    let mut walk = Walk {
        table,
        values,
        text,
        buffer,
        cursor: 0,
        used: 0,
        written: Vec::new(),
    };
    let outcome = walk.run();
    Encoded {
        cursor: walk.cursor,
        outcome,
        written: walk.written,
    }
}

/// What comes before the walk and touches no buffer.
fn admitted(table: &Table, buffer: &[u8]) -> Result<(), Fault> {
    if buffer.len() > PAYLOAD_MAX {
        return Err(Fault::Length(buffer.len()));
    }
    tables::check(table).map_err(Fault::Table)
}

struct Walk<'a> {
    table: &'a Table,
    values: &'a [Given],
    text: &'a [u8],
    buffer: &'a mut [u8],
    cursor: usize,
    /// How many values were used.
    used: usize,
    written: Vec<Written>,
}

impl Walk<'_> {
    /// The fields in order. A set is written where it starts, its other fields with it.
    fn run(&mut self) -> Result<(), Fault> {
        for field in 0..self.table.fields.len() {
            let sets = &self.table.sets;
            match sets.iter().position(|set| set.start == field) {
                Some(set) => self.set(set)?,
                None if self.table.in_a_set(field) => {}
                None => self.field(field, None)?,
            }
        }
        if self.used < self.values.len() {
            return Err(Fault::Values(self.table.fields.len()));
        }
        Ok(())
    }

    /// "The counter's raw (all ones is 0) says how many elements follow; over the maximum is 5."
    fn set(&mut self, number: usize) -> Result<(), Fault> {
        let set = &self.table.sets[number];
        let count = self.elements(set.counter);
        if count > set.maximum as u64 {
            return Err(Fault::Elements {
                set: number,
                count,
                maximum: set.maximum,
            });
        }
        for element in 0..count as usize {
            for field in set.range() {
                self.field(field, Some(element))?;
            }
        }
        Ok(())
    }

    /// The elements that a counter means. Rule h has it precede its set, outside all, so it was written.
    fn elements(&self, counter: usize) -> u64 {
        let mut found = self.written.iter().filter(|one| one.field == counter);
        match found.next().map(|one| &one.content) {
            Some(&Content::Number { raw }) => {
                numbers::elements(width_of(&self.table.fields[counter]), raw)
            }
            _ => unreachable!("a counter is a number before its set"),
        }
    }

    /// A field, outside a set or of an element: 12, 11, 10 or 13, then 3 and 2, then it is put.
    fn field(&mut self, field: usize, element: Option<usize>) -> Result<(), Fault> {
        let described = &self.table.fields[field];
        let made = if is_skipped(described) {
            skipped(described)
        } else {
            let value = self.values.get(self.used).ok_or(Fault::Values(field))?;
            made(described, *value, self.text).map_err(|unfit| unfit.at(field))?
        };
        self.hold(field, &made)?;
        self.used += usize::from(!is_skipped(described));
        let start = self.cursor;
        for (k, &bit) in made.bits.iter().enumerate() {
            put_bit(self.buffer, start + k, bit);
        }
        self.cursor = start + made.bits.len();
        self.written.push(Written {
            field,
            element,
            start,
            bits: made.bits.len(),
            content: made.content,
        });
        Ok(())
    }

    /// 3 at the cursor where bytes would be put that need alignment; then 2, which "counts bits for the
    /// whole field".
    fn hold(&self, field: usize, made: &Made) -> Result<(), Fault> {
        if let Some(before) = made.aligned_after
            && !(self.cursor + before).is_multiple_of(8)
        {
            let cursor = self.cursor + before;
            let refusal = Refusal::Unaligned { cursor };
            return Err(Fault::Bits { field, refusal });
        }
        let (asked, available) = (
            made.bits.len(),
            bits_remaining(self.buffer.len(), self.cursor),
        );
        if asked > available {
            let refusal = Refusal::BeyondBits { asked, available };
            return Err(Fault::Bits { field, refusal });
        }
        Ok(())
    }
}

/// Reserved and Spare take no value.
fn is_skipped(field: &Field) -> bool {
    matches!(field.kind, Kind::Reserved | Kind::Spare)
}

/// A field's bits, and those of them that come before bytes that need alignment, if there are such bytes.
struct Made {
    bits: Vec<bool>,
    aligned_after: Option<usize>,
    content: Content,
}

/// Why a value cannot be written into a field.
enum Unfit {
    OutOfRange,
    OtherKind,
    TooLong,
}

impl Unfit {
    fn at(self, field: usize) -> Fault {
        match self {
            Unfit::OutOfRange => Fault::OutOfRange { field },
            Unfit::OtherKind => Fault::OtherKind { field },
            Unfit::TooLong => Fault::TooLong { field },
        }
    }
}

/// The low bits of a number, lowest first.
fn bits_of(number: u64, width: u32) -> Vec<bool> {
    (0..width).map(|k| number >> k & 1 == 1).collect()
}

fn bits_of_bytes(bytes: &[u8]) -> Vec<bool> {
    let bits = |&byte: &u8| (0..8).map(move |k| byte >> k & 1 == 1);
    bytes.iter().flat_map(bits).collect()
}

/// Ones, which the buffer is of already.
fn skipped(field: &Field) -> Made {
    Made {
        bits: vec![true; width_of(field) as usize],
        aligned_after: None,
        content: Content::Skipped,
    }
}

/// What a value makes of a field. "A value of another kind answers 11"; "only LAU takes an encoding byte".
fn made(field: &Field, value: Given, text: &[u8]) -> Result<Made, Unfit> {
    let whole_bytes = field.width.is_some_and(|width| width.is_multiple_of(8));
    let is_bytes = match field.kind {
        Kind::StringFix | Kind::StringLz | Kind::StringLau => true,
        kind => kind == Kind::Binary && whole_bytes,
    };
    match value {
        Given::Bytes {
            place,
            length,
            encoding,
        } if is_bytes => match (field.kind, encoding) {
            (Kind::StringLau, None) => absent(place, length, text),
            (Kind::StringLau, Some(encoding)) => {
                Ok(encoded(fetched(place, length, TEXT_MAX, text)?, encoding))
            }
            (_, Some(_)) => Err(Unfit::OtherKind),
            (Kind::StringLz, None) => Ok(ended(fetched(place, length, TEXT_MAX, text)?)),
            (kind, None) => {
                let size = u64::from(width_of(field)) / 8;
                if kind == Kind::Binary && length != size {
                    return Err(Unfit::TooLong);
                }
                Ok(filled(fetched(place, length, size, text)?, size as usize))
            }
        },
        Given::Number(value) if !is_bytes => number(field, value),
        _ => Err(Unfit::OtherKind),
    }
}

fn number(field: &Field, value: Value) -> Result<Made, Unfit> {
    let raw = numbers::raw_of(&number_field(field), value).map_err(|refusal| match refusal {
        numbers::Refusal::Width(_) => unreachable!("rule c"),
        numbers::Refusal::OutOfRange => Unfit::OutOfRange,
        numbers::Refusal::OtherKind => Unfit::OtherKind,
    })?;
    Ok(Made {
        bits: bits_of(raw, width_of(field)),
        aligned_after: None,
        content: Content::Number { raw },
    })
}

/// The bytes at a place. "Text or bytes too long, or place + length past the lent text": 13, also where
/// no byte is fetched.
fn fetched(place: u64, length: u64, most: u64, text: &[u8]) -> Result<&[u8], Unfit> {
    let end = u128::from(place) + u128::from(length);
    if length > most || end > text.len() as u128 {
        return Err(Unfit::TooLong);
    }
    Ok(&text[place as usize..end as usize])
}

/// "StringFix is filled with 0xFF." It and a Binary of whole bytes always need alignment.
fn filled(text: &[u8], size: usize) -> Made {
    let mut bytes = text.to_vec();
    bytes.resize(size, FILL);
    Made {
        bits: bits_of_bytes(&bytes),
        aligned_after: Some(0),
        content: Content::Bytes {
            bytes,
            encoding: None,
        },
    }
}

/// "LZ writes length, text, zero."
fn ended(text: &[u8]) -> Made {
    Made {
        bits: bits_of_bytes(&[&[text.len() as u8], text, &[0]].concat()),
        aligned_after: (!text.is_empty()).then_some(8),
        content: Content::Bytes {
            bytes: text.to_vec(),
            encoding: None,
        },
    }
}

/// "It writes length, encoding, text": a reader takes the text for 2 less than the length.
fn encoded(text: &[u8], encoding: u8) -> Made {
    Made {
        bits: bits_of_bytes(&[&[text.len() as u8 + 2, encoding], text].concat()),
        aligned_after: (!text.is_empty()).then_some(16),
        content: Content::Bytes {
            bytes: text.to_vec(),
            encoding: Some(encoding),
        },
    }
}

/// "Without one it takes only empty text (absent): else 11"; "absent writes 1".
fn absent(place: u64, length: u64, text: &[u8]) -> Result<Made, Unfit> {
    if length > 0 {
        return Err(Unfit::OtherKind);
    }
    fetched(place, length, 0, text)?;
    Ok(Made {
        bits: bits_of(1, 8),
        aligned_after: None,
        content: Content::Bytes {
            bytes: Vec::new(),
            encoding: None,
        },
    })
}
