//! The C interface of the library under test, made safe. Each function answers document 01's refusal
//! number, or 0, and fills its answer.

/// What a call on bits fills in: the cursor after the call, and two values.
pub type Answer = [u64; 3];

/// What a scaling fills in: the kind of the value, its bits, whether it is not available, the elements;
/// or what the refusal carries.
pub type Scaled = [u64; 4];

/// What a decode fills in: the count of readings, the length of the working payload if it is the front of
/// the padding run, else 0, the end or what the refusal carries, and what refusal 2 counts.
pub type Decoded = [u64; 6];

/// What an encode fills in: the bytes used, and what the refusal carries.
pub type Encoded = [u64; 4];

/// A function for a call. It goes through the arguments: a slice is lent as its start and its length, a field
/// as its numbers; the answer comes last.
macro_rules! call {
    ($call:tt [$($c:tt)*] [$($rust:tt)*] [$($passed:tt)*] $lent:ident: &[$type:ty], $($rest:tt)*) => {
        call! {
            $call [$($c)* _: *const $type, _: usize,] [$($rust)* $lent: &[$type],]
            [$($passed)* $lent.as_ptr(), $lent.len(),] $($rest)*
        }
    };
    ($call:tt [$($c:tt)*] [$($rust:tt)*] [$($passed:tt)*] $lent:ident: &mut [$type:ty], $($rest:tt)*) => {
        call! {
            $call [$($c)* _: *mut $type, _: usize,] [$($rust)* $lent: &mut [$type],]
            [$($passed)* $lent.as_mut_ptr(), $lent.len(),] $($rest)*
        }
    };
    ($call:tt [] [] [] $field:ident: &CField, $($rest:tt)*) => {
        call! {
            $call [_: u32, _: u32, _: u32, _: u32, _: u32,] [$field: &CField,]
            [$field.kind, $field.width, $field.is_signed, $field.mark, $field.resolution,] $($rest)*
        }
    };
    ($call:tt [$($c:tt)*] [$($rust:tt)*] [$($passed:tt)*] $number:ident: $type:ty, $($rest:tt)*) => {
        call! {
            $call [$($c)* _: $type,] [$($rust)* $number: $type,] [$($passed)* $number,] $($rest)*
        }
    };
    ([$(#[$about:meta])* $name:ident $symbol:ident $answer:ty] [$($c:tt)*] [$($rust:tt)*] [$($passed:tt)*]) => {
        $(#[$about])*
        pub fn $name($($rust)* answer: &mut $answer) -> u32 {
            unsafe extern "C" {
                fn $symbol($($c)* _: *mut $answer) -> u32;
            }
            // SAFETY: the pointers and lengths come from live slices of just those lengths, exclusive where
            // the library writes, and the answer has room for its numbers.
            unsafe { $symbol($($passed)* answer) }
        }
    };
}

macro_rules! calls {
    ($($(#[$about:meta])* fn $name:ident = $symbol:ident($($arguments:tt)*) -> $answer:ty;)*) => {
        $(call! { [$(#[$about])* $name $symbol $answer] [] [] [] $($arguments)* })*
    };
}

calls! {
    fn read_u64 = samopute_read_u64(buffer: &[u8], cursor: usize, width: u32,) -> Answer;
    fn read_u32 = samopute_read_u32(buffer: &[u8], cursor: usize, width: u32,) -> Answer;
    fn read_u16 = samopute_read_u16(buffer: &[u8], cursor: usize, width: u32,) -> Answer;
    fn read_u8 = samopute_read_u8(buffer: &[u8], cursor: usize, width: u32,) -> Answer;
    fn advance = samopute_advance(buffer: &[u8], cursor: usize, width: u32,) -> Answer;
    fn read_slice = samopute_read_slice(buffer: &[u8], cursor: usize, count: usize,) -> Answer;

    fn write_u64 = samopute_write_u64(buffer: &mut [u8], cursor: usize, value: u64, width: u32,) -> Answer;
    fn write_u32 = samopute_write_u32(buffer: &mut [u8], cursor: usize, value: u32, width: u32,) -> Answer;
    fn write_u16 = samopute_write_u16(buffer: &mut [u8], cursor: usize, value: u16, width: u32,) -> Answer;
    fn write_u8 = samopute_write_u8(buffer: &mut [u8], cursor: usize, value: u8, width: u32,) -> Answer;
    fn write_advance = samopute_write_advance(buffer: &mut [u8], cursor: usize, width: u32,) -> Answer;
    fn write_slice = samopute_write_slice(buffer: &mut [u8], cursor: usize, source: &[u8],) -> Answer;

    fn scale = samopute_scale(field: &CField, raw: u64,) -> Scaled;
    /// The raw comes first.
    fn raw_of = samopute_raw_of(field: &CField, value_kind: u32, value: u64,) -> Answer;

    /// 0, or 8; the rule's number from 1 on, the field or the set, 0.
    fn check = samopute_check(words: &[u64],) -> Answer;

    /// The readings are a count and records of 64 bytes.
    fn decode = samopute_decode(
        words: &[u64], payload: &[u8], padding: &mut [u8], readings: &mut [u8],
    ) -> Decoded;
    /// The same into structs, without a count.
    fn decode_run = samopute_decode_run(
        words: &[u64], payload: &[u8], padding: &mut [u8], readings: &mut [CReading],
    ) -> Decoded;
    /// The same by a built-in table; 15 if there is none for the PGN.
    fn decode_pgn = samopute_decode_pgn(
        pgn: u32, payload: &[u8], padding: &mut [u8], readings: &mut [u8],
    ) -> Decoded;

    /// The values are records of 24 bytes.
    fn encode = samopute_encode(
        words: &[u64], values: &[u8], text: &[u8], payload: &mut [u8],
    ) -> Encoded;
    /// The same by a built-in table; 15 if there is none for the PGN.
    fn encode_pgn = samopute_encode_pgn(
        pgn: u32, values: &[u8], text: &[u8], payload: &mut [u8],
    ) -> Encoded;
}

// Two calls that fill in no answer.
mod c {
    unsafe extern "C" {
        pub fn samopute_bits_remaining(b: *const u8, l: usize, at: usize) -> usize;
        pub fn samopute_version() -> u32;
    }
}

pub fn bits_remaining(buffer: &[u8], cursor: usize) -> usize {
    // SAFETY: the pointer and the length are those of a live slice.
    unsafe { c::samopute_bits_remaining(buffer.as_ptr(), buffer.len(), cursor) }
}

/// The version of the interface: the major number times 65536, plus the minor.
pub fn version() -> u32 {
    // SAFETY: it takes nothing.
    unsafe { c::samopute_version() }
}

/// A field as the calls on numbers take it, any numbers: the kinds in the order of the Rust's
/// `FieldKind`; no mark, single or double; the resolution's bits.
#[derive(Clone, Copy, Debug, PartialEq, Eq)]
pub struct CField {
    pub kind: u32,
    pub width: u32,
    pub is_signed: u32,
    pub mark: u32,
    pub resolution: u32,
}

/// A reading as C has it. It takes 64 bytes, none of which is padding.
#[derive(Clone, Copy, Debug, PartialEq, Eq)]
#[repr(C)]
pub struct CReading {
    pub field: u64,
    pub element: u64,
    pub start: u64,
    pub bits: u64,
    pub availability: u8,
    pub value_kind: u8,
    pub has_raw: u8,
    pub has_encoding: u8,
    pub encoding: u8,
    pub reserved: [u8; 3],
    pub raw: u64,
    pub value: u64,
    pub length: u64,
}

// Where the low byte of a number comes first, a struct is the numbers of its record.
#[cfg(not(target_endian = "little"))]
compile_error!("the library under test is for x86-64");

impl CReading {
    pub const EMPTY: CReading = CReading::of([0; 8]);

    /// The struct of a record's numbers.
    pub const fn of(numbers: [u64; 8]) -> CReading {
        // SAFETY: both are 64 bytes without padding, and any bytes are a struct.
        unsafe { std::mem::transmute(numbers) }
    }

    /// The numbers of the record.
    pub const fn numbers(self) -> [u64; 8] {
        // SAFETY: both are 64 bytes without padding, and any bytes are numbers.
        unsafe { std::mem::transmute(self) }
    }
}
