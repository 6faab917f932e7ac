//! Tables in words, and the numbers of one field.

use crate::refusal::Refusal;
use crate::sys;
use crate::value::{Availability, Value};

/// What a field is.
#[derive(Clone, Copy, Debug, PartialEq, Eq)]
#[repr(u8)]
#[allow(missing_docs)] // the names are all there is to say
pub enum Kind {
    Number = 0,
    Float = 1,
    Lookup = 2,
    IndirectLookup = 3,
    BitLookup = 4,
    Pgn = 5,
    Date = 6,
    Time = 7,
    Duration = 8,
    Mmsi = 9,
    Decimal = 10,
    StringFix = 11,
    StringLz = 12,
    StringLau = 13,
    Binary = 14,
    Reserved = 15,
    Spare = 16,
    IsoName = 17,
    Unimplemented = 18,
}

/// What a raw is multiplied by, and how the product is made.
#[derive(Clone, Copy, Debug, PartialEq)]
pub enum Resolution {
    /// In f32.
    Single(f32),
    /// In f64.
    Double(f32),
}

impl Resolution {
    /// The mark and the bits.
    const fn parts(self) -> (u32, u32) {
        match self {
            Resolution::Single(r) => (1, r.to_bits()),
            Resolution::Double(r) => (2, r.to_bits()),
        }
    }
}

/// A field of a table.
#[derive(Clone, Copy, Debug, PartialEq)]
pub struct Field {
    /// What it is.
    pub kind: Kind,
    /// Its width in bits; 0 is none.
    pub width: u16,
    /// Whether its top bit is a sign.
    pub signed: bool,
    /// Its resolution, if it is scaled.
    pub resolution: Option<Resolution>,
}

/// What [`Field::scale`] says of a raw.
#[derive(Clone, Copy, Debug, PartialEq)]
pub struct Scaled {
    /// The value, a number.
    pub value: Value<'static>,
    /// Whether the raw says something.
    pub availability: Availability,
    /// The elements that the raw means as a counter.
    pub elements: u64,
}

impl Field {
    /// An unsigned, unscaled field.
    pub const fn new(kind: Kind, width: u16) -> Field {
        Field {
            kind,
            width,
            signed: false,
            resolution: None,
        }
    }

    /// The same, signed.
    pub const fn signed(self) -> Field {
        Field {
            signed: true,
            ..self
        }
    }

    /// The same, scaled.
    pub const fn scaled(self, resolution: Resolution) -> Field {
        Field {
            resolution: Some(resolution),
            ..self
        }
    }

    const fn parts(self) -> sys::RawField {
        let (mark, resolution) = match self.resolution {
            Some(resolution) => resolution.parts(),
            None => (0, 0),
        };
        sys::RawField {
            kind: self.kind as u32,
            width: self.width as u32,
            is_signed: self.signed as u32,
            mark,
            resolution,
        }
    }

    /// The word of a table.
    pub const fn word(self) -> u64 {
        let f = self.parts();
        f.kind as u64
            | (f.width as u64) << 8
            | (f.is_signed as u64) << 24
            | (f.mark as u64) << 25
            | (f.resolution as u64) << 32
    }

    /// The value of a raw. Only as many low bits of the raw as the width count. A kind that holds no number is refusal 11,
    /// and a width of 0 or over 64 refusal 1.
    ///
    /// ```
    /// use samopute::{Field, Kind, Refusal, Resolution, Value};
    ///
    /// let speed = Field::new(Kind::Number, 16).scaled(Resolution::Single(0.01));
    /// assert_eq!(speed.scale(0x98C0)?.value, Value::F32(39104.0 * 0.01));
    /// let name = Field::new(Kind::StringFix, 8);
    /// assert_eq!(name.scale(0).map_err(|refusal| refusal.number()), Err(11));
    /// # Ok::<(), Refusal>(())
    /// ```
    pub fn scale(self, raw: u64) -> Result<Scaled, Refusal> {
        let mut answer = [0; 4];
        let status = sys::scale(self.parts(), raw, &mut answer);
        let [code, bits, silence, elements] = answer;
        if status != 0 {
            return Err(Refusal::of_call(status, [code, bits, silence]));
        }
        Ok(Scaled {
            // The code is that of a number, always.
            value: Value::number(code as u32, bits).unwrap_or(Value::U64(bits)),
            availability: Availability::of(silence),
            elements,
        })
    }

    /// The raw of a value, or refusal 10 (out of range) or 11 (a value of another kind, or a field of a kind that holds no
    /// number), or 1 for a width of 0 or over 64.
    ///
    /// ```
    /// use samopute::{Field, Kind, Refusal, Resolution, Value};
    ///
    /// let field = Field::new(Kind::Number, 8).scaled(Resolution::Double(1.0));
    /// assert_eq!(field.raw_of(Value::F64(255.4)), Ok(255));
    /// assert_eq!(field.raw_of(Value::F64(255.5)), Err(Refusal::OutOfRange { field: None }));
    /// ```
    pub fn raw_of(self, value: Value<'_>) -> Result<u64, Refusal> {
        let mut answer = [0; 3];
        let (code, bits) = value.code();
        match sys::raw_of(self.parts(), code, bits, &mut answer) {
            0 => Ok(answer[0]),
            status => Err(Refusal::of_call(status, answer)),
        }
    }
}

/// The first word of a table.
#[derive(Clone, Copy, Debug, PartialEq, Eq)]
pub struct Head {
    /// How many fields follow.
    pub fields: u16,
    /// How many sets follow the fields.
    pub sets: u16,
    /// The length in bytes to which a payload is filled with 0xFF; 0 is none.
    pub length: u16,
    /// The least bytes that are filled; 0 is none.
    pub minimum: u16,
}

impl Head {
    /// Of a table without a length or a minimum.
    pub const fn of(fields: u16, sets: u16) -> Head {
        Head {
            fields,
            sets,
            length: 0,
            minimum: 0,
        }
    }

    /// The same, with payloads of `minimum` bytes and more filled to `length`.
    pub const fn filled(self, length: u16, minimum: u16) -> Head {
        Head {
            length,
            minimum,
            ..self
        }
    }

    /// The word of a table.
    pub const fn word(self) -> u64 {
        self.fields as u64
            | (self.sets as u64) << 16
            | (self.length as u64) << 32
            | (self.minimum as u64) << 48
    }
}

/// A set: fields that are repeated.
#[derive(Clone, Copy, Debug, PartialEq, Eq)]
pub struct Set {
    /// Its first field.
    pub start: u16,
    /// How many fields it has.
    pub size: u16,
    /// The field that says how many elements there are.
    pub counter: u16,
    /// The most elements.
    pub maximum: u16,
}

impl Set {
    /// The word of a table.
    pub const fn word(self) -> u64 {
        self.start as u64
            | (self.size as u64) << 16
            | (self.counter as u64) << 32
            | (self.maximum as u64) << 48
    }
}

/// A table: a head, a word for each field, a word for each set. Any words can be one; a decode refuses those that break a
/// rule.
#[derive(Clone, Copy, Debug, PartialEq, Eq)]
pub struct Table<'a> {
    words: &'a [u64],
}

impl<'a> Table<'a> {
    /// The table that these words are.
    pub const fn new(words: &'a [u64]) -> Table<'a> {
        Table { words }
    }

    /// The words.
    pub const fn words(self) -> &'a [u64] {
        self.words
    }

    /// Whether the table is accepted; else refusal 8, with the first rule that is broken and the lowest index.
    ///
    /// ```
    /// use samopute::{Field, Head, Kind, Refusal, Rule, Table};
    ///
    /// let words = [Head::of(1, 0).word(), Field::new(Kind::Float, 16).word()];
    /// assert_eq!(Table::new(&words).check(), Err(Refusal::TableRefused { rule: Rule::C, index: 0 }));
    /// ```
    pub fn check(self) -> Result<(), Refusal> {
        let mut answer = [0; 3];
        match sys::check(self.words, &mut answer) {
            0 => Ok(()),
            status => Err(Refusal::of_call(status, answer)),
        }
    }
}
