//! Values to payloads.

use core::error::Error;
use core::fmt;

use crate::layout::{BYTES, PAYLOAD_MAX, VALUE};
use crate::refusal::Refusal;
use crate::sys;
use crate::table::Table;
use crate::value::Value;

/// The values of an encode, in the order in which a decode makes readings: room for `N` of them.
///
/// Reserved and Spare fields take no value. The fields of a set take one for each element, of which there are as many as
/// the counter before them says. A scaled field takes floats and signed integers, an unscaled one integers of its sign, a
/// Float an `F32`, a text or a Binary of whole bytes [`Value::Bytes`].
///
/// A scaled number that was read is written by its value: where a float has rounded that, the raw can be another one (16777217
/// in 25 bits, single at 1, becomes 16777216), or be refused with 10.
///
/// ```
/// use samopute::{Decoder, Encoder, Value};
///
/// // What was read, with another speed.
/// let frame = [0x2A, 0xFC, 0x5C, 0x3D, 0xC0, 0x98, 0xFF, 0xFF];
/// let mut decoder = Decoder::<8>::new();
/// let mut encoder = Encoder::<8>::new();
/// for reading in decoder.decode_pgn(129026, &frame).readings() {
///     encoder.push(if reading.field == 4 { Value::F64(5.0) } else { reading.value })?;
/// }
/// let mut payload = [0; 8];
/// assert_eq!(encoder.encode_pgn(129026, &mut payload), Ok(8));
/// assert_eq!(payload, [0x2A, 0xFC, 0x5C, 0x3D, 0xF4, 0x01, 0xFF, 0xFF]);
/// # Ok::<(), samopute::Full>(())
/// ```
#[derive(Clone)]
pub struct Encoder<const N: usize> {
    records: [[u8; VALUE]; N],
    count: usize,
    text: [u8; PAYLOAD_MAX],
    text_length: usize,
}

/// An [`Encoder`] has as many values as it has room for.
#[derive(Clone, Copy, Debug, PartialEq, Eq)]
pub struct Full;

impl fmt::Display for Full {
    fn fmt(&self, f: &mut fmt::Formatter<'_>) -> fmt::Result {
        f.write_str("no room for another value")
    }
}

impl Error for Full {}

impl<const N: usize> fmt::Debug for Encoder<N> {
    fn fmt(&self, f: &mut fmt::Formatter<'_>) -> fmt::Result {
        f.debug_struct("Encoder")
            .field("room", &N)
            .field("count", &self.count)
            .finish_non_exhaustive()
    }
}

impl<const N: usize> Default for Encoder<N> {
    fn default() -> Self {
        Self::new()
    }
}

impl<const N: usize> Encoder<N> {
    /// Without values.
    pub const fn new() -> Self {
        Encoder {
            records: [[0; VALUE]; N],
            count: 0,
            text: [0; PAYLOAD_MAX],
            text_length: 0,
        }
    }

    /// With these values.
    pub fn of(values: &[Value<'_>]) -> Result<Self, Full> {
        let mut made = Self::new();
        for value in values {
            made.push(*value)?;
        }
        Ok(made)
    }

    /// One more value. Its bytes, if it has any, are copied.
    pub fn push(&mut self, value: Value<'_>) -> Result<(), Full> {
        if self.count == N {
            return Err(Full);
        }
        self.records[self.count] = match value {
            Value::Bytes { bytes, encoding } => self.text_record(bytes, encoding),
            number => {
                let (kind, bits) = number.code();
                record(kind as u8, None, bits, 0)
            }
        };
        self.count += 1;
        Ok(())
    }

    /// How many values there are.
    pub const fn len(&self) -> usize {
        self.count
    }

    /// Whether there are none.
    pub const fn is_empty(&self) -> bool {
        self.count == 0
    }

    /// Takes all values away.
    pub fn clear(&mut self) {
        self.count = 0;
        self.text_length = 0;
    }

    /// Writes the values by a table, into all of `payload`: every bit that no field puts is 1. Answers the bytes used.
    ///
    /// Refusals 7 and 8 leave the payload as it was. Any other leaves it all ones but for the fields wholly written before:
    /// the faulty field leaves no bit. Such a payload is not to be sent.
    pub fn encode(&self, table: Table<'_>, payload: &mut [u8]) -> Result<usize, Refusal> {
        let mut answer = [0; 4];
        let status = sys::encode(
            table.words(),
            self.values(),
            self.text(),
            payload,
            &mut answer,
        );
        encoded(status, answer)
    }

    /// Writes the values by the built-in table of a PGN: 129025, 129026, 129029 or 130900. Refusal 15, of another PGN, leaves
    /// the payload as it was.
    pub fn encode_pgn(&self, pgn: u32, payload: &mut [u8]) -> Result<usize, Refusal> {
        let mut answer = [0; 4];
        let status = sys::encode_pgn(pgn, self.values(), self.text(), payload, &mut answer);
        encoded(status, answer)
    }

    fn values(&self) -> &[[u8; VALUE]] {
        &self.records[..self.count]
    }

    fn text(&self) -> &[u8] {
        &self.text[..self.text_length]
    }

    /// The record of a text. One that finds no room after those before it finds none in a payload either, which holds no
    /// more: its field is refused for its length, and no byte of it is looked up. It gets a place all the same, so that
    /// nothing but its length is what is refused.
    fn text_record(&mut self, bytes: &[u8], encoding: Option<u8>) -> [u8; VALUE] {
        let first = self.text_length;
        let end = first + bytes.len();
        if end > PAYLOAD_MAX {
            self.text_length = PAYLOAD_MAX;
            return record(BYTES, encoding, 0, bytes.len() as u64);
        }
        self.text[first..end].copy_from_slice(bytes);
        self.text_length = end;
        record(BYTES, encoding, first as u64, bytes.len() as u64)
    }
}

/// A record: kind, whether there is an encoding, the encoding; then the bits or the place, and the length.
fn record(kind: u8, encoding: Option<u8>, value: u64, length: u64) -> [u8; VALUE] {
    let mut made = [0; VALUE];
    made[0] = kind;
    made[1] = u8::from(encoding.is_some());
    made[2] = encoding.unwrap_or(0);
    made[8..16].copy_from_slice(&value.to_le_bytes());
    made[16..].copy_from_slice(&length.to_le_bytes());
    made
}

/// The answer of a call by its status: the bytes used, or the refusal.
fn encoded(status: u32, answer: [u64; 4]) -> Result<usize, Refusal> {
    let [used, a, b, c] = answer;
    match status {
        0 => Ok(used as usize),
        _ => Err(Refusal::of_encode(status, [a, b, c])),
    }
}
