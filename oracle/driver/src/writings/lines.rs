//! Lines of input, in the form in which cases are shown: the cases that they are, and their answers.
use super::asked::Asked;
use super::call::Taken;
use super::case::Case;
use super::records::{self, record};
use super::sides::Answers;
use crate::numbers::value_kinds::value_kind_named;
use crate::payload::call::Call;
use crate::payload::lines::{MALFORMED, answer_lines, parsed_bytes, parsed_decimal, parsed_word};
use model::numbers::{Value, ValueKind};
use model::writing::Given;

/// The longest buffer that is made for a line.
const LONGEST: u64 = 1 << 16;

/// Which side answers.
#[derive(Clone, Copy)]
pub enum Side {
    Ours,
    Model,
    Standin,
    Rust,
}

/// Answers each line of standard input. True if all of it could be read and written.
pub fn answer_input(side: Side) -> bool {
    answer_lines(|line| answered(line, side)).is_ok()
}

fn answered(line: &[u8], side: Side) -> String {
    let Some(case) = std::str::from_utf8(line).ok().and_then(parsed) else {
        return MALFORMED.to_string();
    };
    let asked = Asked::new(&case.words);
    let answers = Answers::new(&case, &asked, None);
    let answer = match side {
        Side::Ours => Taken::new(&case, Call::Words).answer(),
        Side::Model => Some(answers.model),
        Side::Standin => answers.standin,
        Side::Rust => answers.rust,
    };
    answer.map_or("no answer\n".to_string(), |answer| answer.text() + "\n")
}

/// The case that a line is.
fn parsed(line: &str) -> Option<Case> {
    let parts: Vec<&str> = line.split(' ').collect();
    let [size, words, values, text] = parts[..] else {
        return None;
    };
    let words: Option<Vec<u64>> = listed(words).map(parsed_word).collect();
    let values: Option<Vec<Vec<u8>>> = listed(values).map(parsed_record).collect();
    Some(Case {
        size: parsed_decimal(size).filter(|&size| size <= LONGEST)? as usize,
        words: words?,
        values: values?.concat(),
        text: parsed_bytes(text)?,
    })
}

/// What stands between commas; nothing if it is `-`.
fn listed(text: &str) -> impl Iterator<Item = &str> {
    text.split(',').filter(move |_| text != "-")
}

fn parsed_record(text: &str) -> Option<Vec<u8>> {
    if let Some(bytes) = text.strip_prefix('x') {
        return parsed_bytes(bytes);
    }
    let parts: Vec<&str> = text.split(':').collect();
    let value = match parts[..] {
        ["none"] => Given::Nothing,
        ["Bytes", place, length, encoding] => Given::Bytes {
            place: parsed_decimal(place)?,
            length: parsed_decimal(length)?,
            encoding: match encoding {
                "-" => None,
                byte => Some(*parsed_bytes(byte)?.first()?),
            },
        },
        [kind, number] => Given::Number(Value {
            kind: value_kind_named(kind).filter(|&kind| kind != ValueKind::Bytes)?,
            bits: parsed_word(number)?,
        }),
        _ => return None,
    };
    let bytes = record(value);
    (records::given(&bytes) == value).then(|| bytes.to_vec())
}
