//! The same case asked of the three sides: the model, the library under test, and the Rust.
use crate::bytes_left;
use crate::case::{Answer, Call, Case, Raw, Size};
use crate::samopute;
use korri_n2k::error::{BitReaderError, BitWriterError};
use korri_n2k::infra::codec::bits::{BitReader, BitWriter};
use model::Refusal;

/// Document 01's answer.
pub fn model(case: &Case, buffer: &mut [u8]) -> Raw {
    let (length, at) = (buffer.len(), case.cursor);
    let outcome = match case.call {
        Call::Read(size) => {
            model::read(buffer, at, case.width(), size.bits()).map(|(v, next)| (next, [v, 0]))
        }
        Call::Advance | Call::WriteAdvance => {
            model::advance(length, at, case.width()).map(|next| (next, [0, 0]))
        }
        Call::ReadSlice => model::read_slice(length, at, case.count)
            .map(|(start, next)| (next, [start as u64, case.count as u64])),
        Call::Write(size) => model::write(buffer, at, case.value, case.width(), size.bits())
            .map(|next| (next, [0, 0])),
        Call::WriteSlice => model::write_slice(buffer, at, &case.source).map(|next| (next, [0, 0])),
        Call::BitsRemaining => Ok((at, [model::bits_remaining(length, at) as u64, 0])),
    };
    let answer = match outcome {
        Ok((cursor, values)) => Answer {
            cursor,
            outcome: Ok(values),
        },
        Err(refusal) => Answer {
            cursor: at,
            outcome: Err(refusal),
        },
    };
    answer.raw()
}

/// What the values hold before a call of ours: one that is not filled in shows up.
pub const UNSET: u64 = 0x5A5A_5A5A_5A5A_5A5A;

/// The answer of the library under test.
pub fn ours(case: &Case, buffer: &mut [u8]) -> Raw {
    let at = case.cursor;
    let mut values = [UNSET; 3];
    let to = &mut values;
    let number = match case.call {
        Call::Read(Size::U64) => samopute::read_u64(buffer, at, case.width(), to),
        Call::Read(Size::U32) => samopute::read_u32(buffer, at, case.width(), to),
        Call::Read(Size::U16) => samopute::read_u16(buffer, at, case.width(), to),
        Call::Read(Size::U8) => samopute::read_u8(buffer, at, case.width(), to),
        Call::Advance => samopute::advance(buffer, at, case.width(), to),
        Call::ReadSlice => samopute::read_slice(buffer, at, case.count, to),
        Call::Write(Size::U64) => samopute::write_u64(buffer, at, case.value, case.width(), to),
        Call::Write(Size::U32) => {
            samopute::write_u32(buffer, at, case.value as u32, case.width(), to)
        }
        Call::Write(Size::U16) => {
            samopute::write_u16(buffer, at, case.value as u16, case.width(), to)
        }
        Call::Write(Size::U8) => samopute::write_u8(buffer, at, case.value as u8, case.width(), to),
        Call::WriteAdvance => samopute::write_advance(buffer, at, case.width(), to),
        Call::WriteSlice => samopute::write_slice(buffer, at, &case.source, to),
        Call::BitsRemaining => {
            // This call hands back its count alone.
            *to = [at as u64, samopute::bits_remaining(buffer, at) as u64, 0];
            0
        }
    };
    Raw { number, values }
}

/// The answer of the unchanged Rust, where it has one: its widths are `u8`, its writer cannot be
/// past the end, and longer buffers are outside document 01's domain. What its refusal 2 of a slice
/// carries is turned into what ours carries.
pub fn rust(case: &Case, buffer: &mut [u8]) -> Option<Answer> {
    if buffer.len() > model::BUFFER_MAX {
        return None;
    }
    if case.call.writes() {
        rust_write(case, buffer)
    } else {
        rust_read(case, buffer)
    }
}

fn rust_read(case: &Case, buffer: &[u8]) -> Option<Answer> {
    let mut reader = BitReader::new(buffer);
    reader.seek(case.cursor);
    let outcome = match case.call {
        Call::ReadSlice => reader
            .read_slice(case.count)
            .map(|part| [place(buffer, part), part.len() as u64]),
        Call::BitsRemaining => Ok([reader.bits_remaining() as u64, 0]),
        _ => rust_read_number(case.call, &mut reader, u8::try_from(case.count).ok()?),
    };
    Some(Answer {
        cursor: reader.bit_cursor(),
        outcome: outcome.map_err(|error| read_refusal(case, error)),
    })
}

fn rust_read_number(
    call: Call,
    reader: &mut BitReader,
    width: u8,
) -> Result<[u64; 2], BitReaderError> {
    let value = match call {
        Call::Read(Size::U64) => reader.read_u64(width)?,
        Call::Read(Size::U32) => reader.read_u32(width)?.into(),
        Call::Read(Size::U16) => reader.read_u16(width)?.into(),
        Call::Read(Size::U8) => reader.read_u8(width)?.into(),
        _ => {
            reader.advance(width)?;
            0
        }
    };
    Ok([value, 0])
}

/// Where a part of a buffer starts, in bytes.
fn place(buffer: &[u8], part: &[u8]) -> u64 {
    (part.as_ptr().addr() - buffer.as_ptr().addr()) as u64
}

fn rust_write(case: &Case, buffer: &mut [u8]) -> Option<Answer> {
    let mut writer = writer_at(buffer, case.cursor)?;
    let outcome = match case.call {
        Call::WriteSlice => writer.write_slice(&case.source),
        call => {
            let width = u8::try_from(case.count).ok()?;
            rust_write_number(call, &mut writer, case.value, width)
        }
    };
    Some(Answer {
        cursor: writer.bit_cursor(),
        outcome: outcome
            .map(|()| [0, 0])
            .map_err(|error| write_refusal(case, error)),
    })
}

fn rust_write_number(
    call: Call,
    writer: &mut BitWriter,
    value: u64,
    width: u8,
) -> Result<(), BitWriterError> {
    match call {
        Call::Write(Size::U64) => writer.write_u64(value, width),
        Call::Write(Size::U32) => writer.write_u32(value as u32, width),
        Call::Write(Size::U16) => writer.write_u16(value as u16, width),
        Call::Write(Size::U8) => writer.write_u8(value as u8, width),
        _ => writer.advance(width),
    }
}

/// A writer at a cursor. It has no `seek`, so it is advanced to it; past the end none can be.
fn writer_at(buffer: &mut [u8], cursor: usize) -> Option<BitWriter<'_>> {
    let mut writer = BitWriter::new(buffer);
    while writer.bit_cursor() < cursor {
        let step = (cursor - writer.bit_cursor()).min(64);
        writer.advance(step as u8).ok()?;
    }
    Some(writer)
}

fn read_refusal(case: &Case, error: BitReaderError) -> Refusal {
    match error {
        BitReaderError::TooLongForType { max, asked } => Refusal::Width {
            max: max.into(),
            width: asked.into(),
        },
        BitReaderError::OutOfBounds { asked, available } => beyond(case, asked, available),
        BitReaderError::NonAlignedBit { cursor } => Refusal::Unaligned { cursor },
    }
}

/// The Rust counts in the same units as document 01, but does not tell them.
fn beyond(case: &Case, asked: usize, available: usize) -> Refusal {
    match case.call {
        Call::ReadSlice | Call::WriteSlice => beyond_bytes(case, asked, available),
        _ => Refusal::BeyondBits { asked, available },
    }
}

/// An end that no machine word holds is the largest there: of such a one the length is the case's.
fn beyond_bytes(case: &Case, end: usize, size: usize) -> Refusal {
    let is_cut = (case.cursor / 8).checked_add(case.count).is_none();
    let (length, available) = bytes_left::from_cursor(case.cursor, end, size);
    let asked = if is_cut && end == usize::MAX {
        case.count
    } else {
        length
    };
    Refusal::BeyondBytes { asked, available }
}

fn write_refusal(case: &Case, error: BitWriterError) -> Refusal {
    match error {
        BitWriterError::TooLongForType { max, asked } => Refusal::Width {
            max: max.into(),
            width: asked.into(),
        },
        BitWriterError::OutOfBounds { asked, available } => beyond(case, asked, available),
        BitWriterError::NonAlignedBit { cursor } => Refusal::Unaligned { cursor },
    }
}
