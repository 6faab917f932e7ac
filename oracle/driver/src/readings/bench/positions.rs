//! Payloads of PGN 129029 with values as a receiver sends them, the same at every run.
use crate::random::Random;

/// The bytes before the stations, and of a station.
pub const FIXED: usize = 43;
pub const STATION: usize = 4;

/// Payloads of one length, one after the other.
pub struct Positions {
    bytes: Vec<u8>,
    length: usize,
}

impl Positions {
    pub fn new(count: usize, stations: usize, random: &mut Random) -> Positions {
        let length = FIXED + stations * STATION;
        let mut bytes = Vec::with_capacity(count * length);
        for _ in 0..count {
            put_position(&mut bytes, stations, random);
        }
        Positions { bytes, length }
    }

    /// So many payloads at a time.
    pub fn parts(&self, count: usize) -> impl Iterator<Item = Part<'_>> {
        let length = self.length;
        let parts = self.bytes.chunks(length * count);
        parts.map(move |bytes| Part { bytes, length })
    }
}

/// Some of the payloads.
#[derive(Clone, Copy)]
pub struct Part<'a> {
    bytes: &'a [u8],
    length: usize,
}

impl<'a> Part<'a> {
    pub fn payloads(self) -> impl Iterator<Item = &'a [u8]> {
        self.bytes.chunks_exact(self.length)
    }
}

/// Appends a payload.
pub fn put_position(bytes: &mut Vec<u8>, stations: usize, random: &mut Random) {
    let mut within = |low: i64, high: i64| low + random.up_to((high - low) as usize) as i64;
    bytes.push(within(0, 252) as u8);
    bytes.extend((within(19_000, 21_000) as u16).to_le_bytes());
    bytes.extend((within(0, 863_999_999) as u32).to_le_bytes());
    // Degrees at 1e-16, metres at 1e-6.
    bytes.extend(within(-900_000_000_000_000_000, 900_000_000_000_000_000).to_le_bytes());
    bytes.extend(within(-1_800_000_000_000_000_000, 1_800_000_000_000_000_000).to_le_bytes());
    bytes.extend(within(-100_000_000, 600_000_000_000).to_le_bytes());
    // The system and the method; the integrity and six reserved bits.
    bytes.push((within(0, 8) | within(0, 8) << 4) as u8);
    bytes.push((within(0, 2) | 0xFC) as u8);
    bytes.push(within(4, 24) as u8);
    bytes.extend((within(50, 300) as i16).to_le_bytes());
    bytes.extend((within(80, 500) as i16).to_le_bytes());
    bytes.extend((within(-10_700, 8_500) as i32).to_le_bytes());
    bytes.push(stations as u8);
    for _ in 0..stations {
        bytes.extend((within(0, 8) as u16 | (within(0, 1023) as u16) << 4).to_le_bytes());
        bytes.extend((within(0, 6_000) as u16).to_le_bytes());
    }
}
