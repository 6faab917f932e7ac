//! The printing program of document 01: what it prints for a line, by the model, and a list of lines.
pub mod by_hand;
mod lines;
pub mod million;
pub mod rust;

use crate::payload::lines::{MALFORMED, answer_lines, is_hex, parsed_bytes};
use crate::readings::case::Case;
use crate::readings::{answer, refusal};
use crate::tables::built_in::by_pgn;
use crate::tables::words::pack;
use model::reading::{Content, Reading};
use model::tables::Table;
use std::io;

/// The digits of a PGN.
const PGN: usize = 6;

pub fn print_cases() {
    for line in lines::all() {
        println!("{line}");
    }
}

pub fn print_answers() {
    for line in lines::all() {
        print!("{}", printed(&line));
    }
}

/// Answers lines of standard input, whatever their bytes. True if all could be read and printed.
pub fn print_by_model() -> bool {
    is_done(answer_lines(|line| printed(&String::from_utf8_lossy(line))))
}

/// True if nothing went wrong, which else is told.
fn is_done(outcome: io::Result<()>) -> bool {
    if let Err(error) = &outcome {
        eprintln!("{error}");
    }
    outcome.is_ok()
}

/// What is printed for a line: 14, then 15, then `P` and what decoding gives.
pub fn printed(line: &str) -> String {
    let is_whole = line.len() >= PGN && line.len().is_multiple_of(2);
    if !is_whole || !is_hex(line) {
        return MALFORMED.to_string();
    }
    let (pgn, digits) = line.split_at(PGN);
    let known = by_pgn().find(|(known, _)| u32::from_str_radix(pgn, 16) == Ok(*known));
    match known {
        Some((_, table)) => decoded(pgn, &table, parsed_bytes(digits).unwrap_or_default()),
        None => format!("F 15 {pgn}\n"),
    }
}

fn decoded(pgn: &str, table: &Table, payload: Vec<u8>) -> String {
    let mut text = format!("P {pgn} {}\n", payload.len());
    let case = Case::usual(pack(table), payload);
    let (answer, _) = answer::model(table, &case);
    for reading in &answer.readings {
        text += &reading_line(reading);
    }
    match answer.outcome {
        Ok(end) => text += &format!("E {end}\n"),
        Err(fault) => text += &format!("F {}\n", refusal::text(fault)),
    }
    text
}

/// `R FIELD ELEMENT START BITS A|N RAW`; a raw that is none is a place and a length.
fn reading_line(reading: &Reading) -> String {
    let raw = match reading.content {
        Content::Number { raw, .. } => format!("{raw:X}"),
        Content::Bytes { place, length, .. } => format!("{place}:{length}"),
    };
    format!("{} {raw}\n", answer::line_start(reading))
}
