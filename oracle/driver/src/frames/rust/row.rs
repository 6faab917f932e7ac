//! A reading's line, written in two ways: with the formatter of the standard library, as comes first to
//! mind, and digit by digit, for who wants speed.
use std::io::{self, Write};

pub struct Row {
    pub field: usize,
    pub element: Option<usize>,
    pub start: u32,
    pub bits: u32,
    pub state: u8,
    pub raw: u64,
}

/// The longest line: six numbers, and what is between them.
const LONGEST: usize = 128;

pub fn formatted(out: &mut impl Write, row: &Row) -> io::Result<()> {
    let Row {
        field,
        start,
        bits,
        raw,
        ..
    } = *row;
    let state = char::from(row.state);
    match row.element {
        None => writeln!(out, "R {field} - {start} {bits} {state} {raw:X}"),
        Some(element) => writeln!(out, "R {field} {element} {start} {bits} {state} {raw:X}"),
    }
}

pub fn by_digits(out: &mut impl Write, row: &Row) -> io::Result<()> {
    let mut line = Line {
        bytes: [0; LONGEST],
        start: LONGEST,
    };
    line.put(b'\n');
    line.put_number(row.raw, 16);
    line.put(b' ');
    line.put(row.state);
    line.put(b' ');
    line.put_number(row.bits.into(), 10);
    line.put(b' ');
    line.put_number(row.start.into(), 10);
    line.put(b' ');
    match row.element {
        None => line.put(b'-'),
        Some(element) => line.put_number(element as u64, 10),
    }
    line.put(b' ');
    line.put_number(row.field as u64, 10);
    line.put(b' ');
    line.put(b'R');
    out.write_all(&line.bytes[line.start..])
}

/// A line made from its end to its start, as digits come.
struct Line {
    bytes: [u8; LONGEST],
    start: usize,
}

impl Line {
    fn put(&mut self, byte: u8) {
        self.start -= 1;
        self.bytes[self.start] = byte;
    }

    #[inline(always)]
    fn put_number(&mut self, mut number: u64, base: u64) {
        loop {
            self.put(b"0123456789ABCDEF"[(number % base) as usize]);
            number /= base;
            if number == 0 {
                return;
            }
        }
    }
}
