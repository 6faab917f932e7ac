//! Lines of input: the cases that they are, and their answers.
use super::asked::Asked;
use super::case::Case;
use super::cases::LONGEST;
use super::sides::Answers;
use crate::payload::lines::{MALFORMED, answer_lines, parsed_bytes, parsed_decimal, parsed_word};

/// The words that a line has at most.
pub const WORDS_MAX: usize = 200;

/// Which side answers.
#[derive(Clone, Copy)]
pub enum Side {
    Model,
    Standin,
    Rust,
}

/// Answers each line of standard input: the model as the program under test has to, the others as far as
/// they tell. True if all of it could be read and written.
pub fn answer_input(side: Side) -> bool {
    answer_lines(|line| answered(line, side)).is_ok()
}

pub fn answered(line: &[u8], side: Side) -> String {
    let Some(case) = std::str::from_utf8(line).ok().and_then(parsed) else {
        return MALFORMED.to_string();
    };
    let asked = Asked::new(&case.words);
    let answers = Answers::new(&case, &asked, None);
    let told = match side {
        Side::Model => return answers.model.text(),
        // As they say it themselves.
        Side::Standin => answers.standin.and_then(|_| asked.standin(&case)),
        Side::Rust => asked.rust(&case),
    };
    told.map_or("no answer\n".to_string(), |told| told.text())
}

/// The case that a line is.
fn parsed(line: &str) -> Option<Case> {
    let fields: Vec<&str> = line.split(' ').collect();
    let [room, padding, words, payload] = fields[..] else {
        return None;
    };
    let words: Option<Vec<u64>> = words.split(',').map(parsed_word).collect();
    let case = Case {
        room: parsed_decimal(room)?,
        padding: parsed_decimal(padding)?.try_into().ok()?,
        words: words.filter(|words| words.len() <= WORDS_MAX)?,
        payload: parsed_bytes(payload)?,
    };
    let fits = case.padding <= LONGEST && case.payload.len() <= LONGEST;
    fits.then_some(case)
}
