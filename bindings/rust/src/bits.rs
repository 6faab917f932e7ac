//! The bit cursors. A refused call moves no cursor and changes no buffer.

use crate::refusal::{Refusal, Unit};
use crate::sys;

/// The answer of a call by its status: the cursor after it and two numbers, or the refusal, which counts in this unit.
fn answered(status: u32, answer: [u64; 3], unit: Unit) -> Result<(usize, u64, u64), Refusal> {
    let [next, a, b] = answer;
    match status {
        0 => Ok((next as usize, a, b)),
        _ => Err(Refusal::of_bit_call(status, [a, b], unit)),
    }
}

/// Reads a buffer from a cursor on.
#[derive(Clone, Debug)]
pub struct BitReader<'a> {
    buffer: &'a [u8],
    cursor: usize,
}

macro_rules! reads {
    ($($(#[$doc:meta])* $name:ident -> $number:ty;)*) => { $(
        $(#[$doc])*
        pub fn $name(&mut self, width: u32) -> Result<$number, Refusal> {
            let mut answer = [0; 3];
            let status = sys::$name(self.buffer, self.cursor, width, &mut answer);
            let (next, number, _) = answered(status, answer, Unit::Bits)?;
            self.cursor = next;
            Ok(number as $number) // of `width` bits, which the type holds
        }
    )* };
}

impl<'a> BitReader<'a> {
    /// A reader at bit 0.
    pub const fn new(buffer: &'a [u8]) -> BitReader<'a> {
        BitReader { buffer, cursor: 0 }
    }

    /// Puts the cursor at any bit, past the end too.
    pub fn seek(&mut self, cursor: usize) {
        self.cursor = cursor;
    }

    /// Where the cursor stands, in bits.
    pub const fn cursor(&self) -> usize {
        self.cursor
    }

    /// The bits to the end of the buffer, 0 past it.
    pub fn bits_remaining(&self) -> usize {
        sys::bits_remaining(self.buffer, self.cursor)
    }

    reads! {
        /// A number of 1 to 64 bits.
        read_u64 -> u64;
        /// A number of 1 to 32 bits.
        read_u32 -> u32;
        /// A number of 1 to 16 bits.
        read_u16 -> u16;
        /// A number of 1 to 8 bits.
        read_u8 -> u8;
    }

    /// Past 1 to 64 bits.
    pub fn advance(&mut self, width: u32) -> Result<(), Refusal> {
        let mut answer = [0; 3];
        let status = sys::advance(self.buffer, self.cursor, width, &mut answer);
        let (next, _, _) = answered(status, answer, Unit::Bits)?;
        self.cursor = next;
        Ok(())
    }

    /// Some bytes, from a whole byte on.
    pub fn read_slice(&mut self, count: usize) -> Result<&'a [u8], Refusal> {
        let mut answer = [0; 3];
        let status = sys::read_slice(self.buffer, self.cursor, count, &mut answer);
        let (next, start, length) = answered(status, answer, Unit::Bytes)?;
        self.cursor = next;
        // The part lies in the buffer; if it did not, there would be no bytes.
        let part = self
            .buffer
            .get(start as usize..)
            .and_then(|rest| rest.get(..length as usize));
        Ok(part.unwrap_or_default())
    }
}

/// Writes a buffer from a cursor on. Every bit that is not written is kept.
#[derive(Debug)]
pub struct BitWriter<'a> {
    buffer: &'a mut [u8],
    cursor: usize,
}

macro_rules! writes {
    ($($(#[$doc:meta])* $name:ident($number:ty);)*) => { $(
        $(#[$doc])*
        pub fn $name(&mut self, value: $number, width: u32) -> Result<(), Refusal> {
            let mut answer = [0; 3];
            let status = sys::$name(self.buffer, self.cursor, value, width, &mut answer);
            self.moved(status, answer, Unit::Bits)
        }
    )* };
}

impl<'a> BitWriter<'a> {
    /// A writer at bit 0.
    pub const fn new(buffer: &'a mut [u8]) -> BitWriter<'a> {
        BitWriter { buffer, cursor: 0 }
    }

    /// Puts the cursor at any bit, past the end too.
    pub fn seek(&mut self, cursor: usize) {
        self.cursor = cursor;
    }

    /// Where the cursor stands, in bits.
    pub const fn cursor(&self) -> usize {
        self.cursor
    }

    /// The bits to the end of the buffer, 0 past it.
    pub fn bits_remaining(&self) -> usize {
        sys::bits_remaining(self.buffer, self.cursor)
    }

    writes! {
        /// The low 1 to 64 bits of a number.
        write_u64(u64);
        /// The low 1 to 32 bits of a number.
        write_u32(u32);
        /// The low 1 to 16 bits of a number.
        write_u16(u16);
        /// The low 1 to 8 bits of a number.
        write_u8(u8);
    }

    /// Past 1 to 64 bits, which are kept.
    pub fn advance(&mut self, width: u32) -> Result<(), Refusal> {
        let mut answer = [0; 3];
        let status = sys::write_advance(self.buffer, self.cursor, width, &mut answer);
        self.moved(status, answer, Unit::Bits)
    }

    /// Bytes, from a whole byte on.
    pub fn write_slice(&mut self, source: &[u8]) -> Result<(), Refusal> {
        let mut answer = [0; 3];
        let status = sys::write_slice(self.buffer, self.cursor, source, &mut answer);
        self.moved(status, answer, Unit::Bytes)
    }

    /// Puts the cursor where the call left it.
    fn moved(&mut self, status: u32, answer: [u64; 3], unit: Unit) -> Result<(), Refusal> {
        let (next, _, _) = answered(status, answer, unit)?;
        self.cursor = next;
        Ok(())
    }
}
