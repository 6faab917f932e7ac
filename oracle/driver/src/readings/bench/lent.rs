//! What the library is lent to read a payload of PGN 129029.
use crate::readings::boundary::records::{COUNT, RECORD};
use crate::samopute;
use model::reading::PADDING;

pub const PGN: u32 = 129_029;

/// The readings before the stations, and of a station.
pub const FIXED_READINGS: usize = 14;
pub const STATION_READINGS: usize = 3;

/// The most readings that a payload of the message has, and the bytes of ours.
pub const MOST: usize = FIXED_READINGS + 45 * STATION_READINGS;
const READINGS: usize = COUNT + RECORD * MOST;

/// What the library needs beside the payload.
pub struct Lent {
    pub padding: [u8; PADDING],
    pub readings: [u8; READINGS],
    pub answer: samopute::Decoded,
}

impl Lent {
    pub fn new() -> Lent {
        Lent {
            padding: [0; PADDING],
            readings: [0; READINGS],
            answer: [0; 6],
        }
    }
}
