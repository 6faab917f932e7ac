//! A call with its inputs, and what a side answers to it.
use model::Refusal;

/// The size of the number that a call reads or writes.
#[derive(Clone, Copy, Debug, PartialEq, Eq)]
pub enum Size {
    U64,
    U32,
    U16,
    U8,
}

impl Size {
    pub fn bits(self) -> u32 {
        match self {
            Size::U64 => 64,
            Size::U32 => 32,
            Size::U16 => 16,
            Size::U8 => 8,
        }
    }

    /// The low bits of `value` that the size holds.
    pub fn cut(self, value: u64) -> u64 {
        value & (u64::MAX >> (64 - self.bits()))
    }
}

#[derive(Clone, Copy, Debug, PartialEq, Eq)]
pub enum Call {
    Read(Size),
    Advance,
    ReadSlice,
    Write(Size),
    WriteAdvance,
    WriteSlice,
    BitsRemaining,
}

impl Call {
    pub const ALL: [Call; 13] = [
        Call::Read(Size::U64),
        Call::Read(Size::U32),
        Call::Read(Size::U16),
        Call::Read(Size::U8),
        Call::Advance,
        Call::ReadSlice,
        Call::Write(Size::U64),
        Call::Write(Size::U32),
        Call::Write(Size::U16),
        Call::Write(Size::U8),
        Call::WriteAdvance,
        Call::WriteSlice,
        Call::BitsRemaining,
    ];

    pub fn name(self) -> &'static str {
        match self {
            Call::Read(Size::U64) => "read_u64",
            Call::Read(Size::U32) => "read_u32",
            Call::Read(Size::U16) => "read_u16",
            Call::Read(Size::U8) => "read_u8",
            Call::Advance => "advance",
            Call::ReadSlice => "read_slice",
            Call::Write(Size::U64) => "write_u64",
            Call::Write(Size::U32) => "write_u32",
            Call::Write(Size::U16) => "write_u16",
            Call::Write(Size::U8) => "write_u8",
            Call::WriteAdvance => "write_advance",
            Call::WriteSlice => "write_slice",
            Call::BitsRemaining => "bits_remaining",
        }
    }

    /// The widest number of the call, in bits.
    pub fn max(self) -> u32 {
        match self {
            Call::Read(size) | Call::Write(size) => size.bits(),
            _ => model::WIDTH_MAX,
        }
    }

    /// Whether its buffer is lent for writing.
    pub fn writes(self) -> bool {
        matches!(self, Call::Write(_) | Call::WriteAdvance | Call::WriteSlice)
    }

    /// The refusals of the call on a buffer that is not too long.
    pub fn refusals(self) -> &'static [u32] {
        match self {
            Call::ReadSlice | Call::WriteSlice => &[2, 3],
            Call::BitsRemaining => &[],
            _ => &[1, 2],
        }
    }
}

#[derive(Clone, Debug)]
pub struct Case {
    pub call: Call,
    pub buffer: Vec<u8>,
    pub cursor: usize,
    /// A width in bits, at most `u32::MAX`, or in `read_slice` a length in bytes.
    pub count: usize,
    /// What a number write puts, within its size.
    pub value: u64,
    /// What `write_slice` puts.
    pub source: Vec<u8>,
}

impl Case {
    pub fn new(call: Call) -> Case {
        Case {
            call,
            buffer: Vec::new(),
            cursor: 0,
            count: 0,
            value: 0,
            source: Vec::new(),
        }
    }

    pub fn width(&self) -> u32 {
        u32::try_from(self.count).expect("no case has a wider width")
    }

    /// `CALL CURSOR COUNT BUFFER [VALUE]`, the form of the sample.
    pub fn line(&self) -> String {
        let call = self.call.name();
        let (cursor, buffer) = (self.cursor, hex(&self.buffer));
        match self.call {
            Call::Write(_) => format!("{call} {cursor} {} {buffer} {:X}", self.count, self.value),
            Call::WriteSlice => {
                let source = hex(&self.source);
                format!("{call} {cursor} {} {buffer} {source}", self.source.len())
            }
            _ => format!("{call} {cursor} {} {buffer}", self.count),
        }
    }
}

/// What a side answers: the cursor after the call, and two values or a refusal.
#[derive(Clone, Copy, Debug, PartialEq, Eq)]
pub struct Answer {
    pub cursor: usize,
    pub outcome: Result<[u64; 2], Refusal>,
}

/// An answer as the C interface gives it: the refusal's number or 0, then the cursor and two values.
#[derive(Clone, Copy, Debug, PartialEq, Eq)]
pub struct Raw {
    pub number: u32,
    pub values: [u64; 3],
}

impl Answer {
    pub fn raw(self) -> Raw {
        let (number, values) = match self.outcome {
            Ok([first, second]) => (0, [first, second]),
            Err(refusal) => {
                let mut carried = refusal.carried().into_iter();
                (
                    refusal.number(),
                    std::array::from_fn(|_| carried.next().unwrap_or(0)),
                )
            }
        };
        Raw {
            number,
            values: [self.cursor as u64, values[0], values[1]],
        }
    }
}

/// Capital hexadecimal, two digits a byte, or `-` for none.
pub fn hex(bytes: &[u8]) -> String {
    if bytes.is_empty() {
        return "-".to_string();
    }
    bytes.iter().map(|byte| format!("{byte:02X}")).collect()
}
