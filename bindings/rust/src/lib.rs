//! Reads and writes GNSS payloads in NMEA 2000 form, and never guesses: a call answers readings or a payload, or a numbered
//! refusal.
//!
//! This is the boundary of Samopute with Rust types. The library behind it is proved to meet its contracts; this crate is
//! not, and is kept small: `sys` has all of its unsafe code, the rest turns numbers into types. It needs `core` alone and
//! uses no heap: the buffers are the caller's, in a [`Decoder`] and an [`Encoder`].
//!
//! # Building
//!
//! The static libraries come first: `./libraries` at the root of the repository makes them, for x86-64 Linux. The build
//! script looks for both in `target/staticlib` there, or in the folder that `SAMOPUTE_LIB_DIR` names.
//!
//! # Frames in, readings out
//!
//! Four messages are built in: 129025, 129026, 129029 and 130900. docs/MESSAGES.md says what their fields mean.
//!
//! ```
//! use samopute::{Decoder, Value};
//!
//! let payload = [0x2A, 0xFC, 0x5C, 0x3D, 0xC0, 0x98, 0xFF, 0xFF];
//! let mut decoder = Decoder::<8>::new(); // room for 8 readings
//! let decoded = decoder.decode_pgn(129026, &payload);
//!
//! assert_eq!(decoded.end(), Ok(64)); // in bits
//! let speed = decoded.readings().find(|r| r.field == 4).unwrap();
//! assert!(speed.is_available());
//! assert_eq!(speed.raw, Some(0x98C0));
//! assert_eq!(speed.value, Value::F32(39104.0 * 0.01)); // m/s
//! ```
//!
//! # A refusal
//!
//! The readings before it stand. It has document 01's number, and carries what that document says.
//!
//! ```
//! use samopute::{Decoder, Refusal};
//!
//! let mut decoder = Decoder::<8>::new();
//! let decoded = decoder.decode_pgn(129026, &[0x2A, 0xFC, 0x5C, 0x3D, 0xC0]);
//! assert_eq!(decoded.readings().count(), 3);
//! assert_eq!(decoded.end(), Err(Refusal::CutShort { field: 4 }));
//! assert_eq!(decoded.end().unwrap_err().number(), 4);
//! ```
//!
//! # Readings in a slice of your own
//!
//! A [`Decoder`] has its buffers in itself. [`decode_run`] stores records into a slice instead, of any length, and they stay
//! there.
//!
//! ```
//! use samopute::{decode_run, Field, Head, Kind, Record, Table, Value, PADDING_LENGTH};
//!
//! let words = [
//!     Head::of(2, 0).word(),
//!     Field::new(Kind::Number, 8).word(),
//!     Field::new(Kind::Number, 16).word(),
//! ];
//! let mut padding = [0; PADDING_LENGTH];
//! let mut records = vec![Record::default(); 3];
//! let run = decode_run(Table::new(&words), &[42, 0x34, 0x12], &mut padding, &mut records);
//! assert_eq!(run.end(), Ok(24));
//! assert_eq!(run.readings().nth(1).unwrap().value, Value::U16(0x1234));
//! assert_eq!(run.records().len(), 2);
//! assert_eq!(records[1].raw, 0x1234); // where the library put it
//! assert_eq!(records[2], Record::default()); // as it was
//! ```
//!
//! # Values in, frames out
//!
//! ```
//! use samopute::{Encoder, Refusal, Value};
//!
//! let mut payload = [0; 8];
//! let course = Value::F64(1.5708); // rad
//! let encoder = Encoder::<4>::of(&[Value::U8(42), Value::U8(0), course, Value::F64(391.04)]).unwrap();
//! assert_eq!(encoder.encode_pgn(129026, &mut payload), Ok(8)); // the bytes used
//! assert_eq!(payload, [0x2A, 0xFC, 0x5C, 0x3D, 0xC0, 0x98, 0xFF, 0xFF]);
//!
//! // A satellite's speed does not fit 16 bits of 0.01 m/s: it is refused, never cut to what fits.
//! let encoder = Encoder::<4>::of(&[Value::U8(42), Value::U8(0), course, Value::F64(7600.0)]).unwrap();
//! let refused = encoder.encode_pgn(129026, &mut payload);
//! assert_eq!(refused, Err(Refusal::OutOfRange { field: Some(4) }));
//! assert_eq!(payload, [0x2A, 0xFC, 0x5C, 0x3D, 0xFF, 0xFF, 0xFF, 0xFF]); // no bit of it is there
//! ```
//!
//! # A table of your own
//!
//! A table is words, built in constants: a head, a word for each field, a word for each set.
//!
//! ```
//! use samopute::{Decoder, Field, Head, Kind, Resolution, Table, Value};
//!
//! const WORDS: [u64; 3] = [
//!     Head::of(2, 0).word(),
//!     Field::new(Kind::Number, 16).signed().scaled(Resolution::Double(0.5)).word(),
//!     Field::new(Kind::StringLz, 0).word(),
//! ];
//!
//! let table = Table::new(&WORDS);
//! assert_eq!(table.check(), Ok(()));
//!
//! let mut decoder = Decoder::<2>::new();
//! let decoded = decoder.decode(table, &[0xFE, 0xFF, 2, b'A', b'B']);
//! let values: Vec<Value> = decoded.readings().map(|r| r.value).collect();
//! assert_eq!(values, [Value::F64(-1.0), Value::Bytes { bytes: b"AB", encoding: None }]);
//! ```
//!
//! # Bits
//!
//! [`BitReader`] and [`BitWriter`] are the bit cursors. Bit i of a buffer is bit i mod 8 of byte i div 8, lowest first.
//!
//! ```
//! let mut reader = samopute::BitReader::new(&[0xF0, 0x1F]);
//! reader.seek(4);
//! assert_eq!(reader.read_u64(9), Ok(511));
//! assert_eq!(reader.cursor(), 13);
//! ```
#![no_std]
#![deny(unsafe_op_in_unsafe_fn, missing_docs, missing_debug_implementations)]
#![deny(unsafe_code)]

// The static library is machine code for one platform. A count of it has 64 bits, as `usize` has there. The tests of this
// crate are run on another processor too, where tests/across has a library that hands each call to that one.
#[cfg(not(all(
    any(target_arch = "x86_64", all(samopute_across, target_endian = "little")),
    target_os = "linux",
    target_pointer_width = "64"
)))]
compile_error!("the static library is for x86-64 Linux, with pointers of 64 bits");

mod bits;
mod decode;
mod encode;
mod layout;
mod record;
mod refusal;
#[allow(unsafe_code)]
mod sys;
mod table;
mod value;

pub use crate::bits::{BitReader, BitWriter};
pub use crate::decode::{decode_run, Decoded, DecodedRun, Decoder, Reading, Readings};
pub use crate::encode::{Encoder, Full};
pub use crate::layout::{BUFFER_MAX, PADDING_LENGTH, PAYLOAD_MAX, ROOM_ENOUGH};
pub use crate::record::Record;
pub use crate::refusal::{Refusal, Rule};
pub use crate::table::{Field, Head, Kind, Resolution, Scaled, Set, Table};
pub use crate::value::{Availability, Value};

/// The version of the library that is linked.
#[derive(Clone, Copy, Debug, PartialEq, Eq, PartialOrd, Ord)]
pub struct Version {
    /// A library of another major is not the one that this crate is for.
    pub major: u32,
    /// What was added within a major.
    pub minor: u32,
}

/// Asks the library for its version. This crate is for 3.0.
///
/// ```
/// assert_eq!(samopute::version(), samopute::Version { major: 3, minor: 0 });
/// ```
pub fn version() -> Version {
    let number = sys::version();
    Version {
        major: number / 65536,
        minor: number % 65536,
    }
}
