//! What a side answers to a case, as the program under test has it in text.
use super::case::{Case, FILLER};
use super::refusal;
use crate::case::hex;
use model::reading::{self, Content, Decoded, Fault, Reading};
use model::tables::Table;
use std::fmt::Write;

/// What a side answers to a case.
#[derive(Clone, Debug, PartialEq, Eq)]
pub struct Answer {
    pub readings: Vec<Reading>,
    /// The end in bits, or the refusal.
    pub outcome: Result<usize, Fault>,
    /// The padding run afterwards, up to the last byte that is changed.
    pub padding: Vec<u8>,
}

/// Document 01's answer, and where its walk ended or stopped, in bits.
pub fn model(table: &Table, case: &Case) -> (Answer, usize) {
    let mut padding = vec![FILLER; case.padding];
    let decoded = reading::decode(table, &case.payload, &mut padding, case.room);
    let Decoded {
        readings,
        cursor,
        outcome,
    } = decoded;
    let changed = padding.iter().rposition(|&byte| byte != FILLER);
    padding.truncate(changed.map_or(0, |last| last + 1));
    let answer = Answer {
        readings,
        outcome: outcome.map(|()| cursor),
        padding,
    };
    (answer, cursor)
}

impl Answer {
    /// 0, or the number of the refusal.
    pub fn number(&self) -> u32 {
        self.outcome.map_or_else(Fault::number, |_| 0)
    }

    /// The lines `R ..`, then `E ..` or `F ..`, then `D ..`, each with its newline.
    pub fn text(&self) -> String {
        let mut text = String::new();
        for reading in &self.readings {
            put_reading(&mut text, reading);
        }
        match self.outcome {
            Ok(end) => writeln!(text, "E {end} {}", self.readings.len()),
            Err(fault) => writeln!(text, "F {}", refusal::text(fault)),
        }
        .unwrap();
        writeln!(text, "D {}", hex(&self.padding)).unwrap();
        text
    }
}

/// `R FIELD ELEMENT START BITS A|N RAW KIND VALUE [ENCODING]`.
fn put_reading(text: &mut String, reading: &Reading) {
    write!(text, "{} ", line_start(reading)).unwrap();
    match reading.content {
        Content::Number { raw, value } => {
            writeln!(text, "{raw:X} {:?} {:X}", value.kind, value.bits)
        }
        Content::Bytes {
            place,
            length,
            encoding,
        } => {
            let encoding = encoding.map_or("-".to_string(), |byte| format!("{byte:02X}"));
            writeln!(text, "- Bytes {place}:{length} {encoding}")
        }
    }
    .unwrap();
}

/// What comes before the raw.
pub fn line_start(reading: &Reading) -> String {
    let Reading {
        field, start, bits, ..
    } = reading;
    let element = (reading.element).map_or("-".to_string(), |element| element.to_string());
    let state = if reading.available { 'A' } else { 'N' };
    format!("R {field} {element} {start} {bits} {state}")
}
