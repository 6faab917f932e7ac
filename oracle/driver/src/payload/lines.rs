//! Lines of standard input, answered one by one, and what stands in them.
use std::io::{self, BufRead, BufWriter, Write, stdin, stdout};

/// What a line that is not of the form is answered with.
pub const MALFORMED: &str = "F 14\n";

/// The digits that a word has at most.
const DIGITS_MAX: usize = 16;

/// A line ends at its newline alone: a carriage return before it is a part of it.
pub fn answer_lines(answer: impl Fn(&[u8]) -> String) -> io::Result<()> {
    let mut output = BufWriter::new(stdout().lock());
    for line in stdin().lock().split(b'\n') {
        output.write_all(answer(&line?).as_bytes())?;
    }
    output.flush()
}

pub fn parsed_decimal(text: &str) -> Option<u64> {
    let digits = text.bytes().all(|byte| byte.is_ascii_digit());
    text.parse().ok().filter(|_| digits)
}

/// Whether all are capital hexadecimal digits.
pub fn is_hex(text: &str) -> bool {
    text.bytes()
        .all(|byte| matches!(byte, b'0'..=b'9' | b'A'..=b'F'))
}

pub fn parsed_word(text: &str) -> Option<u64> {
    let fits = is_hex(text) && text.len() <= DIGITS_MAX;
    let is_short = text == "0" || !text.starts_with('0');
    u64::from_str_radix(text, 16)
        .ok()
        .filter(|_| fits && is_short)
}

pub fn parsed_bytes(text: &str) -> Option<Vec<u8>> {
    if text == "-" {
        return Some(Vec::new());
    }
    let fits = is_hex(text) && !text.is_empty() && text.len().is_multiple_of(2);
    let pairs = (0..text.len()).step_by(2).filter(|_| fits);
    let bytes = pairs.map(|at| u8::from_str_radix(&text[at..at + 2], 16).ok());
    bytes.collect::<Option<Vec<u8>>>().filter(|_| fits)
}

/// Bytes in hexadecimal, with spaces between some. `41*20` is a byte twenty times.
pub fn worked_bytes(text: &str) -> Vec<u8> {
    let byte = |digits: &str| u8::from_str_radix(digits, 16).expect("two digits");
    let run = |word: &str| match word.split_once('*') {
        Some((digits, times)) => vec![byte(digits); times.parse().expect("a count")],
        None => (0..word.len())
            .step_by(2)
            .map(|at| byte(&word[at..at + 2]))
            .collect(),
    };
    text.split(' ')
        .filter(|word| !word.is_empty())
        .flat_map(run)
        .collect()
}
