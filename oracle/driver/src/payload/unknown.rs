//! PGNs that are not built in.
use crate::random::Random;
use crate::tables::built_in::PGNS;

/// Holds so many calls by such a PGN against 15.
pub fn outcome(
    count: usize,
    random: &mut Random,
    refused: impl Fn(u32, &mut Random) -> Result<(), String>,
) -> Result<String, String> {
    for _ in 0..count {
        let pgn = any_unknown(random);
        refused(pgn, random).map_err(|text| format!("PGN {pgn}\n  {text}"))?;
    }
    Ok(format!("{count} cases"))
}

/// Beside one that is built in, one of its bits flipped, one with more bits above it, or any.
fn any_unknown(random: &mut Random) -> u32 {
    loop {
        let known = random.among(&PGNS);
        let pgn = match random.up_to(4) {
            0 => random.near(known as usize, 5) as u32,
            1 => known ^ 1 << random.up_to(31),
            2 => known | (random.next() as u32) << 18,
            3 => random.of_any_length() as u32,
            _ => random.among(&[0, 1, u32::MAX, 1 << 31, known << 8, known.swap_bytes()]),
        };
        if !PGNS.contains(&pgn) {
            return pgn;
        }
    }
}
