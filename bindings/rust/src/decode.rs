//! Payloads to readings.

use core::fmt;
use core::iter::FusedIterator;

use crate::layout::{PADDING_LENGTH, RECORD};
use crate::record::Record;
use crate::refusal::{Refusal, Unit};
use crate::sys;
use crate::table::Table;
use crate::value::{Availability, Value};

/// The buffers of a decode: the padding run, and room for `N` readings of 64 bytes each.
///
/// It can be used again and again; what it answered before is gone then. It can stand anywhere, in a `static` too.
#[derive(Clone)]
pub struct Decoder<const N: usize> {
    padding: [u8; PADDING_LENGTH],
    run: sys::Run<N>,
}

impl<const N: usize> fmt::Debug for Decoder<N> {
    fn fmt(&self, f: &mut fmt::Formatter<'_>) -> fmt::Result {
        // The buffers hold no readings but those that a `Decoded` has.
        f.debug_struct("Decoder")
            .field("room", &N)
            .finish_non_exhaustive()
    }
}

impl<const N: usize> Default for Decoder<N> {
    fn default() -> Self {
        Self::new()
    }
}

impl<const N: usize> Decoder<N> {
    /// Buffers without readings.
    pub const fn new() -> Self {
        Decoder {
            padding: [0; PADDING_LENGTH],
            run: sys::Run::new(),
        }
    }

    /// Reads a payload by a table.
    pub fn decode<'a>(&'a mut self, table: Table<'_>, payload: &'a [u8]) -> Decoded<'a> {
        let mut answer = [0; 6];
        let status = sys::decode(
            table.words(),
            payload,
            &mut self.padding,
            &mut self.run,
            &mut answer,
        );
        self.decoded(status, answer, payload)
    }

    /// Reads a payload by the built-in table of a PGN: 129025, 129026, 129029 or 130900. None of these has a length, so a
    /// payload is never filled.
    pub fn decode_pgn<'a>(&'a mut self, pgn: u32, payload: &'a [u8]) -> Decoded<'a> {
        let mut answer = [0; 6];
        let status = sys::decode_pgn(pgn, payload, &mut self.padding, &mut self.run, &mut answer);
        self.decoded(status, answer, payload)
    }

    /// The answer, with the readings that were made.
    fn decoded<'a>(
        &'a self,
        status: u32,
        answer: sys::DecodeAnswer,
        payload: &'a [u8],
    ) -> Decoded<'a> {
        let outcome = Outcome::new(status, answer, payload, &self.padding);
        Decoded {
            records: &self.run.records[..outcome.count.min(N)],
            outcome,
        }
    }
}

/// What a decode answers beside its readings.
#[derive(Clone, Copy, Debug)]
struct Outcome<'a> {
    count: usize,
    payload: &'a [u8],
    is_filled: bool,
    end: Result<u64, Refusal>,
}

impl<'a> Outcome<'a> {
    /// With the working payload: what was received, or as many bytes at the front of the padding run as were filled.
    fn new(
        status: u32,
        answer: sys::DecodeAnswer,
        payload: &'a [u8],
        padding: &'a [u8; PADDING_LENGTH],
    ) -> Outcome<'a> {
        let [count, filled, a, b, c, unit] = answer;
        Outcome {
            count: count as usize,
            payload: match filled as usize {
                0 => payload,
                length => &padding[..length.min(PADDING_LENGTH)],
            },
            is_filled: filled != 0,
            end: match status {
                0 => Ok(a),
                _ => Err(Refusal::of_decode(status, [a, b, c], Unit::of(unit))),
            },
        }
    }
}

/// What a decode answers: the readings that were made, then the end or the refusal.
#[derive(Clone, Copy)]
#[must_use]
pub struct Decoded<'a> {
    records: &'a [[u8; RECORD]],
    outcome: Outcome<'a>,
}

impl fmt::Debug for Decoded<'_> {
    fn fmt(&self, f: &mut fmt::Formatter<'_>) -> fmt::Result {
        f.debug_struct("Decoded")
            .field("readings", &self.readings())
            .field("outcome", &self.outcome)
            .finish()
    }
}

impl<'a> Decoded<'a> {
    /// The end in bits, or why there is none.
    pub fn end(&self) -> Result<u64, Refusal> {
        self.outcome.end
    }

    /// The readings in order. A refusal leaves those that were made before it.
    pub fn readings(&self) -> Readings<'a> {
        Readings {
            records: self.records.iter(),
            payload: self.outcome.payload,
        }
    }

    /// The payload that the readings stand in: the received one, or the filled one.
    pub fn working_payload(&self) -> &'a [u8] {
        self.outcome.payload
    }

    /// Whether the payload was filled to the table's length.
    pub fn is_filled(&self) -> bool {
        self.outcome.is_filled
    }
}

/// Reads a payload by a table into a slice of records, which has room for as many readings as it is long. Records after the
/// last reading stay as they were; refusals 7 and 8 leave all of them and the padding run so.
///
/// It answers as [`Decoder::decode`], which takes two thirds of the time.
///
/// ```
/// use samopute::{decode_run, Field, Head, Kind, Record, Refusal, Table, PADDING_LENGTH};
///
/// let words = [Head::of(2, 0).word(), Field::new(Kind::Number, 8).word(), Field::new(Kind::Number, 8).word()];
/// let (mut padding, mut records) = ([0; PADDING_LENGTH], [Record::default(); 1]);
/// let run = decode_run(Table::new(&words), &[7, 8], &mut padding, &mut records);
/// assert_eq!(run.end(), Err(Refusal::NoRoom { field: 1 }));
/// assert_eq!(run.records()[0].raw, 7);
/// ```
pub fn decode_run<'a>(
    table: Table<'_>,
    payload: &'a [u8],
    padding: &'a mut [u8; PADDING_LENGTH],
    records: &'a mut [Record],
) -> DecodedRun<'a> {
    let mut answer = [0; 6];
    let status = sys::decode_run(table.words(), payload, padding, records, &mut answer);
    let outcome = Outcome::new(status, answer, payload, padding);
    let made = outcome.count.min(records.len());
    DecodedRun {
        records: &records[..made],
        outcome,
    }
}

/// What [`decode_run`] answers: the records that were made, then the end or the refusal.
#[derive(Clone, Copy, Debug)]
#[must_use]
pub struct DecodedRun<'a> {
    records: &'a [Record],
    outcome: Outcome<'a>,
}

impl<'a> DecodedRun<'a> {
    /// The end in bits, or why there is none.
    pub fn end(&self) -> Result<u64, Refusal> {
        self.outcome.end
    }

    /// The records that were made, where they stand. A refusal leaves those that were made before it.
    pub fn records(&self) -> &'a [Record] {
        self.records
    }

    /// The same with types, in order.
    pub fn readings(&self) -> impl ExactSizeIterator<Item = Reading<'a>> + Clone + 'a {
        let payload = self.outcome.payload;
        let records = self.records.iter();
        records.map(move |record| Reading::of(record, payload))
    }

    /// The payload that the readings stand in: the received one, or the filled one.
    pub fn working_payload(&self) -> &'a [u8] {
        self.outcome.payload
    }

    /// Whether the payload was filled to the table's length.
    pub fn is_filled(&self) -> bool {
        self.outcome.is_filled
    }
}

/// What was read of a field.
#[derive(Clone, Copy, Debug, PartialEq)]
pub struct Reading<'a> {
    /// The field, counted from 0.
    pub field: u64,
    /// The element of its set, counted from 0; nothing outside sets.
    pub element: Option<u64>,
    /// Its first bit in the working payload.
    pub start: u64,
    /// The bits that it takes.
    pub bits: u64,
    /// Whether it says something.
    pub availability: Availability,
    /// The number in its bits; texts and whole bytes have none.
    pub raw: Option<u64>,
    /// What it says.
    pub value: Value<'a>,
}

impl<'a> Reading<'a> {
    /// Whether it says something.
    pub fn is_available(&self) -> bool {
        self.availability == Availability::Available
    }

    /// The reading of a record, whose bytes stand in the payload.
    fn of(record: &Record, payload: &'a [u8]) -> Reading<'a> {
        Reading {
            field: record.field,
            element: record.in_set(),
            start: record.start,
            bits: record.bits,
            availability: Availability::of(record.availability.into()),
            raw: (record.has_raw == 1).then_some(record.raw),
            // A kind that is no number's is that of bytes.
            value: Value::number(record.value_kind.into(), record.value)
                .unwrap_or_else(|| bytes_of(record, payload)),
        }
    }
}

/// The bytes of a record. They lie in the payload; if they did not, there would be none.
fn bytes_of<'a>(record: &Record, payload: &'a [u8]) -> Value<'a> {
    let (place, length) = (record.value as usize, record.length as usize);
    let bytes = payload.get(place..).and_then(|rest| rest.get(..length));
    Value::Bytes {
        bytes: bytes.unwrap_or_default(),
        encoding: (record.has_encoding == 1).then_some(record.encoding),
    }
}

/// The readings of a decode, in order.
#[derive(Clone)]
pub struct Readings<'a> {
    records: core::slice::Iter<'a, [u8; RECORD]>,
    payload: &'a [u8],
}

impl fmt::Debug for Readings<'_> {
    fn fmt(&self, f: &mut fmt::Formatter<'_>) -> fmt::Result {
        f.debug_list().entries(self.clone()).finish()
    }
}

impl<'a> Iterator for Readings<'a> {
    type Item = Reading<'a>;

    fn next(&mut self) -> Option<Reading<'a>> {
        let record = self.records.next()?;
        Some(Reading::of(&Record::of(record), self.payload))
    }

    fn size_hint(&self) -> (usize, Option<usize>) {
        self.records.size_hint()
    }
}

impl ExactSizeIterator for Readings<'_> {}

impl FusedIterator for Readings<'_> {}
