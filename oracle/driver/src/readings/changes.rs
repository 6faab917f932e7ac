//! A payload in which one number has other bits, and what may change in its answer.
use super::answer::Answer;
use super::case::Case;
use crate::case::hex;
use crate::random::Random;
use model::reading::{Content, Reading};
use model::tables::Table;

/// Which bits a number gets.
#[derive(Clone, Copy, Debug, PartialEq, Eq)]
pub enum Way {
    Zeros,
    Ones,
    OneBit,
    Any,
}

impl Way {
    pub const ALL: [Way; 4] = [Way::Zeros, Way::Ones, Way::OneBit, Way::Any];

    pub fn name(self) -> &'static str {
        match self {
            Way::Zeros => "zeros",
            Way::Ones => "ones",
            Way::OneBit => "one bit",
            Way::Any => "any",
        }
    }

    /// The new bits. Where they would be the old ones, every bit is flipped.
    fn bits(self, old: u64, width: usize, random: &mut Random) -> u64 {
        let ones = u64::MAX >> (64 - width);
        let new = match self {
            Way::Zeros => 0,
            Way::Ones => ones,
            Way::OneBit => old ^ 1 << random.up_to(width - 1),
            Way::Any => random.next() & ones,
        };
        if new == old { old ^ ones } else { new }
    }
}

/// The new bits of a reading.
pub struct Change {
    /// Which of the answer's readings.
    pub reading: usize,
    start: usize,
    width: usize,
    bits: u64,
}

impl Change {
    pub fn new(
        number: usize,
        reading: &Reading,
        way: Way,
        case: &Case,
        random: &mut Random,
    ) -> Change {
        let &Reading {
            start, bits: width, ..
        } = reading;
        let old = bits_at(&case.payload, start, width);
        Change {
            reading: number,
            start,
            width,
            bits: way.bits(old, width, random),
        }
    }

    /// The case with the new bits in the received payload.
    pub fn made(&self, case: &Case) -> Case {
        let mut case = case.clone();
        self.put(&mut case.payload);
        case
    }

    /// Bit by bit: bit i of a run is bit i mod 8 of byte i div 8, a number's lowest first.
    fn put(&self, bytes: &mut [u8]) {
        for k in 0..self.width {
            let at = self.start + k;
            let one = 1 << (at % 8);
            match self.bits >> k & 1 {
                0 => bytes[at / 8] &= !one,
                _ => bytes[at / 8] |= one,
            }
        }
    }

    /// Whether all of an answer is kept but the reading's raw, which is the new bits, its value and its
    /// availability. `before` is the text of an answer that decodes.
    pub fn keeps_the_rest(&self, before: &str, answer: &Answer, after: &str) -> Result<(), String> {
        let (olds, news): (Vec<&str>, Vec<&str>) =
            (before.lines().collect(), after.lines().collect());
        if olds.len() != news.len() {
            return Err(format!("{} lines become {}", olds.len(), news.len()));
        }
        let run = olds.len() - 1;
        for (i, (old, new)) in olds.into_iter().zip(news).enumerate() {
            let kept = match i {
                _ if i == self.reading => self.is_in(old, new),
                _ if i == run => new == self.run_after(answer),
                _ => old == new,
            };
            if !kept {
                return Err(format!(
                    "{old} becomes {new}, with {:X} in bits {} to {}",
                    self.bits,
                    self.start,
                    self.start + self.width - 1
                ));
            }
        }
        Ok(())
    }

    /// Whether a reading's line has the field, the element and the span of another, and the new raw.
    fn is_in(&self, old: &str, new: &str) -> bool {
        let (olds, news): (Vec<&str>, Vec<&str>) =
            (old.split(' ').collect(), new.split(' ').collect());
        olds.len() == news.len() && olds[..5] == news[..5] && news[6] == format!("{:X}", self.bits)
    }

    /// The padding run's line: where it was filled, it has the new bits too.
    fn run_after(&self, answer: &Answer) -> String {
        let mut run = answer.padding.clone();
        if 8 * run.len() >= self.start + self.width {
            self.put(&mut run);
        }
        format!("D {}", hex(&run))
    }
}

/// Whether a reading's bits are changed: those of a number that counts no set and lies wholly in the
/// received payload. Else why not.
pub fn is_changed(table: &Table, case: &Case, reading: &Reading) -> Result<(), &'static str> {
    let Content::Number { .. } = reading.content else {
        return Err("texts left alone");
    };
    if table.sets.iter().any(|set| set.counter == reading.field) {
        return Err("counters left alone");
    }
    let end = reading.start.saturating_add(reading.bits);
    if end > 8 * case.payload.len() {
        return Err("numbers in filled bytes left alone");
    }
    // The cover fails on such a reading.
    if !(1..=64).contains(&reading.bits) || reading.field >= table.fields.len() {
        return Err("numbers that cannot be");
    }
    Ok(())
}

fn bits_at(bytes: &[u8], start: usize, width: usize) -> u64 {
    let bit = |at: usize| u64::from(bytes[at / 8] >> (at % 8) & 1);
    (0..width).map(|k| bit(start + k) << k).sum()
}
