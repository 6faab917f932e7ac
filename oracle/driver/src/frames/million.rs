//! A million frames to time the printing program with: a quarter of each built-in message, 129029 with 0,
//! 2 or 10 stations, values as a receiver sends them, the same at every run.
use super::is_done;
use crate::case::hex;
use crate::cases::SEED;
use crate::random::Random;
use crate::readings::bench::positions::put_position;
use std::io::{self, BufWriter, Write, stdout};

const FRAMES: usize = 1_000_000;
const STATIONS: [usize; 3] = [0, 2, 10];

/// Prints the frames. True if all could be printed.
pub fn print() -> bool {
    let mut out = BufWriter::new(stdout().lock());
    is_done(put_all(&mut out).and_then(|()| out.flush()))
}

fn put_all(out: &mut impl Write) -> io::Result<()> {
    let mut random = Random::new(SEED);
    let mut payload = Vec::new();
    for i in 0..FRAMES {
        payload.clear();
        let pgn = match i % 4 {
            0 => put_rapid_position(&mut payload, &mut random),
            1 => put_course(&mut payload, &mut random),
            2 => {
                put_position(&mut payload, STATIONS[i / 4 % 3], &mut random);
                "01F805"
            }
            _ => put_ours(&mut payload, &mut random),
        };
        writeln!(out, "{pgn}{}", hex(&payload))?;
    }
    Ok(())
}

/// 129025: degrees at 1e-7.
fn put_rapid_position(payload: &mut Vec<u8>, random: &mut Random) -> &'static str {
    for most in [900_000_000, 1_800_000_000] {
        let degrees = random.up_to(2 * most) as i64 - most as i64;
        payload.extend((degrees as i32).to_le_bytes());
    }
    "01F801"
}

/// 129026: radians at 0.0001, metres a second at 0.01.
fn put_course(payload: &mut Vec<u8>, random: &mut Random) -> &'static str {
    payload.push(random.up_to(252) as u8);
    payload.push(0xFC | random.up_to(1) as u8);
    payload.extend((random.up_to(62_831) as u16).to_le_bytes());
    payload.extend((random.up_to(3_000) as u16).to_le_bytes());
    payload.extend([0xFF; 2]);
    "01F802"
}

/// 130900: the maker and the industry around two reserved bits, then three samples at 0.001.
fn put_ours(payload: &mut Vec<u8>, random: &mut Random) -> &'static str {
    let maker = random.up_to(2046) as u16;
    payload.extend((maker | 3 << 11 | 4 << 13).to_le_bytes());
    payload.push(random.up_to(252) as u8);
    for _ in 0..3 {
        let sample = random.up_to(20_000_000) as i32 - 10_000_000;
        payload.extend(sample.to_le_bytes());
    }
    payload.push(0xFF);
    "01FF54"
}
