//! Buffers that are lent to a call: where they lie and what they hold before.
use crate::cases::SEED;
use crate::random::Random;

/// Bytes before and behind a buffer that are not lent.
const AROUND: usize = 24;

/// No byte of a pattern is this one, which a payload is filled with: a filled run always shows.
const FILL: u8 = 0xFF;

/// A buffer between bytes that are not lent. No alignment is asked of it, so it starts anywhere.
#[derive(Clone, Debug, PartialEq, Eq)]
pub struct Lent {
    all: Vec<u8>,
    start: usize,
    length: usize,
}

impl Lent {
    pub fn new(length: usize, random: &mut Random) -> Lent {
        let start = AROUND + random.up_to(7);
        let mut all = random.bytes(start + length + AROUND);
        for byte in all.iter_mut().filter(|byte| **byte == FILL) {
            *byte = 0;
        }
        Lent { all, start, length }
    }

    pub fn bytes(&self) -> &[u8] {
        &self.all[self.start..][..self.length]
    }

    pub fn bytes_mut(&mut self) -> &mut [u8] {
        &mut self.all[self.start..][..self.length]
    }

    /// Writes bytes from a place on.
    pub fn put(&mut self, at: usize, bytes: &[u8]) {
        self.bytes_mut()[at..][..bytes.len()].copy_from_slice(bytes);
    }

    /// The first byte of all, counted from the buffer's own first, that is not as it was.
    pub fn changed_around(&self, before: &Lent) -> Option<isize> {
        let lent = self.start..self.start + self.length;
        let mut places = (0..self.all.len()).filter(|place| !lent.contains(place));
        let changed = places.find(|&place| self.all[place] != before.all[place]);
        changed.map(|place| place as isize - self.start as isize)
    }
}

/// Bytes to be read. They are the end of their memory: a byte read behind them is one of nobody.
#[derive(Clone, Debug, PartialEq, Eq)]
pub struct Ending {
    all: Vec<u8>,
    start: usize,
}

impl Ending {
    /// No alignment is asked of them, so they start anywhere.
    pub fn new(bytes: &[u8], random: &mut Random) -> Ending {
        let start = random.up_to(7);
        let mut all = random.bytes(start);
        all.extend(bytes);
        all.shrink_to_fit();
        Ending { all, start }
    }

    pub fn bytes(&self) -> &[u8] {
        &self.all[self.start..]
    }
}

/// What the buffers of a case are drawn by. It is told by the case alone, so that a case that is asked again
/// is asked the same.
pub fn drawn(sizes: &[u64], words: &[u64], bytes: &[u8]) -> Random {
    let bytes = bytes.iter().map(|&byte| byte.into());
    let numbers = sizes.iter().chain(words).copied().chain(bytes);
    let mixed = |seed: u64, number: u64| Random::new(seed ^ number).next();
    Random::new(numbers.fold(SEED, mixed))
}
