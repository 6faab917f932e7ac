//! What a side answers to the words of a table.
use crate::samopute;
use model::tables;

/// The outcomes: accepted, then the letters, by the number that the interface has for them.
pub const ALL: &str = "-abcdefgh";

/// An answer as the C interface gives it.
#[derive(Clone, Copy, PartialEq, Eq)]
pub struct Answer {
    number: u32,
    values: [u64; 3],
}

impl Answer {
    pub fn ours(words: &[u64]) -> Answer {
        // No call answers all ones, so that a value that is not filled in shows.
        let mut values = [u64::MAX; 3];
        let number = samopute::check(words, &mut values);
        Answer { number, values }
    }

    pub fn model(words: &[u64]) -> Answer {
        Answer::of(tables::check(&tables::read(words)))
    }

    pub fn of(outcome: Result<(), tables::Broken>) -> Answer {
        match outcome {
            Ok(()) => Answer {
                number: 0,
                values: [0; 3],
            },
            Err((letter, index)) => Answer {
                number: 8,
                values: [outcome_of(letter) as u64, index as u64, 0],
            },
        }
    }

    /// The outcome, as a place in `ALL`.
    pub fn rule(self) -> usize {
        self.values[0] as usize
    }

    pub fn text(self) -> String {
        let [rule, index, rest] = self.values;
        match (self.number, letter(rule), rest) {
            (0, Some('-'), 0) if index == 0 => "accepted".to_string(),
            (8, Some(letter @ 'a'..='h'), 0) => format!("8, {letter}, {index}"),
            (number, ..) => format!("number {number}, values {rule} {index} {rest}"),
        }
    }
}

pub fn letter(rule: u64) -> Option<char> {
    ALL.chars().nth(rule as usize)
}

/// The place of a letter in `ALL`.
pub fn outcome_of(letter: char) -> usize {
    ALL.chars().position(|one| one == letter).unwrap()
}

pub fn hex(words: &[u64]) -> String {
    let words: Vec<String> = words.iter().map(|word| format!("{word:X}")).collect();
    match words.len() {
        0 => "no words".to_string(),
        _ => words.join(" "),
    }
}
