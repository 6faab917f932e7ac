//! A small generator of random numbers, the same at every run.

pub struct Random(u64);

impl Random {
    pub fn new(seed: u64) -> Random {
        Random(seed)
    }

    /// The next number (splitmix64).
    pub fn next(&mut self) -> u64 {
        self.0 = self.0.wrapping_add(0x9E37_79B9_7F4A_7C15);
        let mut z = self.0;
        z = (z ^ (z >> 30)).wrapping_mul(0xBF58_476D_1CE4_E5B9);
        z = (z ^ (z >> 27)).wrapping_mul(0x94D0_49BB_1331_11EB);
        z ^ (z >> 31)
    }

    /// A number from 0 to `most`.
    pub fn up_to(&mut self, most: usize) -> usize {
        match (most as u64).checked_add(1) {
            Some(count) => (self.next() % count) as usize,
            None => self.next() as usize,
        }
    }

    /// A number at most `spread` away from `middle`, within the numbers there are.
    pub fn near(&mut self, middle: usize, spread: usize) -> usize {
        let low = middle.saturating_sub(spread);
        let high = middle.saturating_add(spread);
        low + self.up_to(high - low)
    }

    pub fn among<T: Copy>(&mut self, choices: &[T]) -> T {
        choices[self.up_to(choices.len() - 1)]
    }

    /// A number of a random bit length, 0 to 64.
    pub fn of_any_length(&mut self) -> u64 {
        let bits = self.up_to(64) as u32;
        self.next().checked_shr(64 - bits).unwrap_or(0)
    }

    pub fn bytes(&mut self, length: usize) -> Vec<u8> {
        let mut bytes = Vec::with_capacity(length + 7);
        while bytes.len() < length {
            bytes.extend(self.next().to_le_bytes());
        }
        bytes.truncate(length);
        bytes
    }
}
