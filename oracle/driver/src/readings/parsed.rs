//! Answers read from text, so that one that the model does not give can be held against the Rust.
use super::answer::Answer;
use super::refusal;
use crate::numbers::value_kinds::value_kind_named;
use crate::payload::lines::parsed_bytes;
use model::numbers::Value;
use model::reading::{Content, Fault, Reading};

impl Answer {
    /// The answer that such lines say, if they are of the form.
    pub fn parsed(text: &str) -> Option<Answer> {
        let mut lines = text.lines().peekable();
        let mut readings = Vec::new();
        while let Some(line) = lines.next_if(|line| line.starts_with("R ")) {
            readings.push(parsed_reading(line)?);
        }
        let outcome = parsed_outcome(lines.next()?, readings.len())?;
        let padding = parsed_bytes(lines.next()?.strip_prefix("D ")?)?;
        let whole = lines.next().is_none();
        whole.then_some(Answer {
            readings,
            outcome,
            padding,
        })
    }
}

fn parsed_reading(line: &str) -> Option<Reading> {
    let words: Vec<&str> = line.split(' ').collect();
    let [_, field, element, start, bits, state, raw, kind, rest @ ..] = &words[..] else {
        return None;
    };
    let content = match (*raw, *kind, rest) {
        ("-", "Bytes", [place, encoding]) => {
            let (place, length) = place.split_once(':')?;
            Content::Bytes {
                place: place.parse().ok()?,
                length: length.parse().ok()?,
                encoding: parsed_encoding(encoding)?,
            }
        }
        (raw, kind, [digits]) => Content::Number {
            raw: u64::from_str_radix(raw, 16).ok()?,
            value: Value {
                kind: value_kind_named(kind)?,
                bits: u64::from_str_radix(digits, 16).ok()?,
            },
        },
        _ => return None,
    };
    Some(Reading {
        field: field.parse().ok()?,
        element: parsed_element(element)?,
        start: start.parse().ok()?,
        bits: bits.parse().ok()?,
        content,
        available: match *state {
            "A" => true,
            "N" => false,
            _ => return None,
        },
    })
}

fn parsed_encoding(text: &str) -> Option<Option<u8>> {
    match text {
        "-" => Some(None),
        digits => u8::from_str_radix(digits, 16).ok().map(Some),
    }
}

fn parsed_element(text: &str) -> Option<Option<usize>> {
    match text {
        "-" => Some(None),
        digits => digits.parse().ok().map(Some),
    }
}

/// The count of an `E` line has to be that of the readings.
fn parsed_outcome(line: &str, count: usize) -> Option<Result<usize, Fault>> {
    if let Some(words) = line.strip_prefix("E ") {
        let (end, given) = words.split_once(' ')?;
        let end = end.parse().ok()?;
        return (given.parse() == Ok(count)).then_some(Ok(end));
    }
    Some(Err(refusal::parsed(line.strip_prefix("F ")?)?))
}
