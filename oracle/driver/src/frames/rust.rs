//! The printing program as the Rust would have it: `for_each_field` over each frame, with a line for each
//! reading. It prints what ours does for frames that decode; of a refusal it prints what the Rust tells,
//! which names no field in 1 to 4.
pub mod row;

use super::{PGN, is_done};
use crate::readings::oracles::rust::{Asked, refused};
use crate::tables::built_in::by_pgn;
use korri_n2k::core::{Availability, FieldDescriptor, PgnDescriptor};
use korri_n2k::infra::codec::engine::{FieldReading, for_each_field};
use model::tables::PAYLOAD_MAX;
use row::Row;
use std::io::{self, BufRead, BufWriter, StdoutLock, Write, stdin, stdout};
use std::ptr;

/// The bytes that are printed at a time.
const BUFFER: usize = 1 << 16;

type Out = BufWriter<StdoutLock<'static>>;

/// How a reading's line is written.
type Put = fn(&mut Out, &Row) -> io::Result<()>;

/// Answers standard input. True if all could be read and printed.
pub fn print(put: Put) -> bool {
    let mut out = BufWriter::with_capacity(BUFFER, stdout().lock());
    is_done(answer(&mut stdin().lock(), &mut out, put).and_then(|()| out.flush()))
}

fn answer(input: &mut impl BufRead, out: &mut Out, put: Put) -> io::Result<()> {
    let messages = messages();
    let (mut line, mut payload) = (Vec::new(), Vec::new());
    loop {
        line.clear();
        if input.read_until(b'\n', &mut line)? == 0 {
            return Ok(());
        }
        let digits = line.strip_suffix(b"\n").unwrap_or(&line);
        print_line(digits, &mut payload, &messages, out, put)?;
    }
}

fn print_line(
    digits: &[u8],
    payload: &mut Vec<u8>,
    messages: &[Message],
    out: &mut Out,
    put: Put,
) -> io::Result<()> {
    let Some((pgn, digits)) = digits.split_at_checked(PGN) else {
        return writeln!(out, "F 14");
    };
    let (Some(number), true) = (number(pgn), put_bytes(digits, payload)) else {
        return writeln!(out, "F 14");
    };
    match messages.iter().find(|message| message.pgn == number) {
        Some(message) => message.print(payload, out, put),
        None => writeln!(out, "F 15 {number:06X}"),
    }
}

fn number(digits: &[u8]) -> Option<u32> {
    let mut values = digits.iter().map(|&digit| digit_value(digit));
    values.try_fold(0, |sum, digit| Some(sum << 4 | u32::from(digit?)))
}

fn digit_value(digit: u8) -> Option<u8> {
    match digit {
        b'0'..=b'9' => Some(digit - b'0'),
        b'A'..=b'F' => Some(digit - b'A' + 10),
        _ => None,
    }
}

/// False if the digits are not of whole bytes.
fn put_bytes(digits: &[u8], bytes: &mut Vec<u8>) -> bool {
    bytes.clear();
    let (pairs, rest) = digits.as_chunks();
    for &[high, low] in pairs {
        let (Some(high), Some(low)) = (digit_value(high), digit_value(low)) else {
            return false;
        };
        bytes.push(high << 4 | low);
    }
    rest.is_empty()
}

/// A message that is built in.
struct Message {
    pgn: u32,
    table: &'static PgnDescriptor,
    /// Where each field starts, in bits, if no set before it has an element; the end comes last.
    starts: Vec<u32>,
    /// The bits of an element. The messages have at most one set, at the end.
    element: u32,
}

fn messages() -> Vec<Message> {
    let message = |(pgn, table)| Message::new(pgn, Asked::new(&table).descriptor());
    by_pgn().map(message).collect()
}

impl Message {
    fn new(pgn: u32, table: &'static PgnDescriptor) -> Message {
        let width = |field: &FieldDescriptor| field.bits_length.unwrap_or(0);
        let mut starts = vec![0];
        for field in table.fields {
            starts.push(starts[starts.len() - 1] + width(field));
        }
        let set = table.repeating_field_sets.first();
        let element = set.map_or(0, |set| {
            let fields = &table.fields[set.start_field_index..][..set.size];
            fields.iter().map(width).sum()
        });
        Message {
            pgn,
            table,
            starts,
            element,
        }
    }

    fn print(&self, payload: &[u8], out: &mut Out, put: Put) -> io::Result<()> {
        writeln!(out, "P {:06X} {}", self.pgn, payload.len())?;
        if payload.len() > PAYLOAD_MAX {
            return writeln!(out, "F 7 {}", payload.len());
        }
        // What is read goes on when printing fails: the engine does not let its walk be broken off.
        let mut printed = Ok(());
        let mut elements = 0;
        let outcome = for_each_field(self.table, payload, |field, reading| {
            let row = self.row(field, &reading);
            elements = row.element.map_or(0, |element| element as u32 + 1);
            if printed.is_ok() {
                printed = put(out, &row);
            }
        });
        printed?;
        match outcome {
            Ok(()) => writeln!(out, "E {}", self.end(elements)),
            Err(error) => writeln!(out, "F {}", refused(error).text()),
        }
    }

    fn row(&self, field: &'static FieldDescriptor, reading: &FieldReading) -> Row {
        let number = self.number_of(field);
        let element = reading.repetition.map(|(_, element)| element);
        let before = element.map_or(0, |element| element as u32 * self.element);
        Row {
            field: number,
            element,
            start: self.starts[number] + before,
            bits: field.bits_length.unwrap_or(0),
            state: match reading.availability {
                Availability::Available => b'A',
                _ => b'N',
            },
            // Every field of these messages is a number.
            raw: reading.raw.unwrap_or(0),
        }
    }

    /// The engine hands out fields of its table, not their numbers.
    fn number_of(&self, field: &'static FieldDescriptor) -> usize {
        let offset = ptr::from_ref(field).addr() - self.table.fields.as_ptr().addr();
        offset / size_of::<FieldDescriptor>()
    }

    /// Where a payload with so many elements ends.
    fn end(&self, elements: u32) -> u32 {
        let whole = self.starts[self.starts.len() - 1];
        whole - self.element + elements * self.element
    }
}
