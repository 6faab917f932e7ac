//! Document 01's "Bit calls", with document 02, §2, a bit at a time, over every input: any width, any cursor, any length.
//! It answers where the Rust cannot. Sums are made in `u128`, where none can overflow. Numbers, tables
//! and the reading and writing of payloads are in modules of their own.
pub mod numbers;
pub mod reading;
pub mod tables;
pub mod writing;

/// The longest buffer that a bit call takes, in bytes.
pub const BUFFER_MAX: usize = 65_536;

/// The widest number, and the maximum that a width of 0 is answered with.
pub const WIDTH_MAX: u32 = 64;

/// The refusals of a bit call, with what they carry.
#[derive(Clone, Copy, Debug, PartialEq, Eq)]
pub enum Refusal {
    Width {
        max: u32,
        width: u32,
    },
    /// 2 of a number call, which counts bits.
    BeyondBits {
        asked: usize,
        available: usize,
    },
    /// 2 of a slice call, which counts bytes: the length asked, and the whole bytes left from the cursor.
    BeyondBytes {
        asked: usize,
        available: usize,
    },
    Unaligned {
        cursor: usize,
    },
    TooLong {
        length: usize,
    },
}

impl Refusal {
    /// The paper's number.
    pub fn number(self) -> u32 {
        match self {
            Refusal::Width { .. } => 1,
            Refusal::BeyondBits { .. } | Refusal::BeyondBytes { .. } => 2,
            Refusal::Unaligned { .. } => 3,
            Refusal::TooLong { .. } => 6,
        }
    }

    /// What it carries, in the paper's order.
    pub fn carried(self) -> Vec<u64> {
        match self {
            Refusal::Width { max, width } => vec![max.into(), width.into()],
            Refusal::BeyondBits { asked, available }
            | Refusal::BeyondBytes { asked, available } => {
                vec![asked as u64, available as u64]
            }
            Refusal::Unaligned { cursor } => vec![cursor as u64],
            Refusal::TooLong { length } => vec![length as u64],
        }
    }

    /// The bits of one of what it counts, if it is 2; else 0.
    pub fn unit(self) -> u64 {
        match self {
            Refusal::BeyondBits { .. } => 1,
            Refusal::BeyondBytes { .. } => 8,
            _ => 0,
        }
    }
}

/// A number of `width` bits, at most `max`, and the moved cursor.
pub fn read(buffer: &[u8], cursor: usize, width: u32, max: u32) -> Result<(u64, usize), Refusal> {
    let end = number_end(buffer.len(), cursor, width, max)?;
    let number = (cursor..end)
        .enumerate()
        .map(|(k, i)| u64::from(bit(buffer, i)) << k)
        .sum();
    Ok((number, end))
}

/// Past `width` bits, with the limits of a 64-bit read: the moved cursor.
pub fn advance(length: usize, cursor: usize, width: u32) -> Result<usize, Refusal> {
    number_end(length, cursor, width, WIDTH_MAX)
}

/// Puts the `width` low bits of `value`, `width` at most `max`: the moved cursor.
pub fn write(
    buffer: &mut [u8],
    cursor: usize,
    value: u64,
    width: u32,
    max: u32,
) -> Result<usize, Refusal> {
    let end = number_end(buffer.len(), cursor, width, max)?;
    for (k, i) in (cursor..end).enumerate() {
        put_bit(buffer, i, value >> k & 1 == 1);
    }
    Ok(end)
}

/// The first byte of the `count` bytes from the cursor on, and the moved cursor.
pub fn read_slice(length: usize, cursor: usize, count: usize) -> Result<(usize, usize), Refusal> {
    let end = slice_end(length, cursor, count)?;
    Ok((cursor / 8, end * 8))
}

/// Puts all of `source` from the cursor on: the moved cursor.
pub fn write_slice(buffer: &mut [u8], cursor: usize, source: &[u8]) -> Result<usize, Refusal> {
    let end = slice_end(buffer.len(), cursor, source.len())?;
    for (k, &byte) in source.iter().enumerate() {
        buffer[cursor / 8 + k] = byte;
    }
    Ok(end * 8)
}

/// The bits from the cursor to the end, 0 past it. It never refuses.
pub fn bits_remaining(length: usize, cursor: usize) -> usize {
    length.saturating_mul(8).saturating_sub(cursor)
}

/// Where a number call ends, in bits. Order: 6, 1, 2.
fn number_end(length: usize, cursor: usize, width: u32, max: u32) -> Result<usize, Refusal> {
    refuse_long(length)?;
    if width == 0 {
        let max = WIDTH_MAX;
        return Err(Refusal::Width { max, width });
    }
    if width > max {
        return Err(Refusal::Width { max, width });
    }
    let end = cursor as u128 + u128::from(width);
    if end > length as u128 * 8 {
        return Err(Refusal::BeyondBits {
            asked: width as usize,
            available: bits_remaining(length, cursor),
        });
    }
    Ok(end as usize)
}

/// Where a slice call ends, in bytes. Order: 6, 3, 2.
fn slice_end(length: usize, cursor: usize, count: usize) -> Result<usize, Refusal> {
    refuse_long(length)?;
    if !cursor.is_multiple_of(8) {
        return Err(Refusal::Unaligned { cursor });
    }
    let end = (cursor / 8) as u128 + count as u128;
    if end > length as u128 {
        return Err(Refusal::BeyondBytes {
            asked: count,
            available: bits_remaining(length, cursor) / 8,
        });
    }
    Ok(end as usize)
}

fn refuse_long(length: usize) -> Result<(), Refusal> {
    if length > BUFFER_MAX {
        return Err(Refusal::TooLong { length });
    }
    Ok(())
}

/// Bit i of a buffer: bit i mod 8 of byte i div 8, lowest first.
fn bit(buffer: &[u8], i: usize) -> bool {
    buffer[i / 8] >> (i % 8) & 1 == 1
}

fn put_bit(buffer: &mut [u8], i: usize, on: bool) {
    let mask = 1 << (i % 8);
    if on {
        buffer[i / 8] |= mask;
    } else {
        buffer[i / 8] &= !mask;
    }
}
