//! A case on a payload, on which sides are held against each other, and what they answer to it.
use super::smaller::Smaller;
use crate::pair::Pair;
use crate::tally::Reason;

pub trait Held: Smaller {
    /// What the side under test gives.
    type Ours: ?Sized;
    /// Why something is not compared with the Rust.
    type Reason: Reason;
    /// What its tests are called.
    const NAME: &'static str;

    /// The table.
    fn words(&self) -> &[u64];
    /// The case in the form of the sample.
    fn line(&self) -> String;
    /// The bytes that the line ends in.
    fn last(&self) -> &[u8];
    /// Whether cases on which a pair speaks can have an outcome.
    fn has_outcome(pair: Pair, number: u32) -> bool;
    /// Asks all sides, and ours if it is given.
    fn asked<T>(&self, ours: Option<&Self::Ours>, then: impl FnOnce(&dyn Answered<Self>) -> T)
    -> T;

    /// The case as a line, without the middle of a long payload or text at its end.
    fn short_line(&self) -> String {
        const SHOWN: usize = 60;
        let (line, length) = (self.line(), self.last().len());
        match 2 * length {
            0..=SHOWN => line,
            digits => format!(
                "{}.. ({length} bytes)",
                &line[..line.len() - digits + SHOWN]
            ),
        }
    }
}

/// What all sides answer to a case.
pub trait Answered<C: Held> {
    fn case(&self) -> &C;
    /// The model's outcome: 0, or the number of the refusal.
    fn number(&self) -> u32;
    /// Whether the two differ, if both speak.
    fn differs(&self, pair: Pair) -> Option<bool>;
    /// Both answers as they are printed, the side's first.
    fn texts(&self, pair: Pair) -> [String; 2];
    /// Why the case, or parts of it, are not compared with the Rust.
    fn excused(&self) -> Vec<C::Reason>;
    /// The reasons under which the Rust does differ.
    fn parting(&self) -> Vec<C::Reason>;
}

/// A case, what is given, and what is wanted.
pub fn differing(line: &str, texts: [&str; 2]) -> String {
    let [given, wanted] = texts.map(|text| text.trim_end().replace('\n', "\n    "));
    format!("\n  {line}\n    {given}\n  where this is wanted\n    {wanted}")
}
