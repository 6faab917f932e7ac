//! Where the Rust is known to part from document 01 on writing, told by the input alone. Such a case is not
//! compared with it; it is counted, and each reason has to show a case that does differ.
use super::asked::Asked;
use super::case::Case;
use super::kinds::takes_value;
use crate::numbers::case::{self as number, Call};
use crate::numbers::differences::{self as numbers, reason};
use crate::payload::described::number_field;
use crate::tally;
use model::Refusal;
use model::numbers::{Kind, Value};
use model::tables::{Field, PAYLOAD_MAX};
use model::writing::{Encoded, Fault, Given, TEXT_MAX};

/// The bytes that the Rust's values have room for.
const RUST_BYTES: u64 = 230;

#[derive(Clone, Copy, Debug, PartialEq, Eq, PartialOrd, Ord)]
pub enum Reason {
    Number(numbers::Reason),
    SpareZeros,
    FixedText,
    AbsentText,
    LongText,
    TextCut,
    TextUnaligned,
    BytesCut,
    CountCut,
    LongBuffer,
    RefusedTable,
}

impl tally::Reason for Reason {
    const ALL: &'static [Reason] = &[
        Reason::Number(numbers::Reason::LookupWritten),
        Reason::Number(numbers::Reason::UnitResolution),
        Reason::Number(numbers::Reason::FloatTakes),
        Reason::Number(numbers::Reason::FloatNan),
        Reason::Number(numbers::Reason::FarBelow),
        Reason::SpareZeros,
        Reason::FixedText,
        Reason::AbsentText,
        Reason::LongText,
        Reason::TextCut,
        Reason::TextUnaligned,
        Reason::BytesCut,
        Reason::CountCut,
        Reason::LongBuffer,
        Reason::RefusedTable,
    ];
    const COUNTED: [&'static str; 2] = [" cases", " by it alone"];

    fn text(self) -> &'static str {
        match self {
            Reason::Number(reason) => reason.text(),
            Reason::SpareZeros => "Spare is written as zeros",
            Reason::FixedText => "StringFix takes the bytes that its text has",
            Reason::AbsentText => "an absent StringLau is written 02 01",
            Reason::LongText => "texts over 221 bytes are written",
            Reason::TextCut => {
                "no room for a text: it is written by parts, and 2 counts one of them"
            }
            Reason::TextUnaligned => "a text that is not aligned: what comes before it is written",
            Reason::BytesCut => {
                "no room for a StringFix or a Binary: 2 counts bytes, and asks the end"
            }
            Reason::CountCut => "elements over the maximum are left out",
            Reason::LongBuffer => "a buffer over 223 bytes is written",
            Reason::RefusedTable => "no table is checked",
        }
    }
}

/// The reasons why a case is not compared with the Rust, along the walk.
pub fn reasons(asked: &Asked, case: &Case, encoded: &Encoded) -> Vec<Reason> {
    if let Some(reason) = whole(asked, case) {
        return vec![reason];
    }
    let given = case.given();
    let mut values = given.iter().copied();
    let mut all = Vec::new();
    for written in &encoded.written {
        let field = &asked.table.fields[written.field];
        match field.kind {
            Kind::Reserved => {}
            Kind::Spare => all.push(Reason::SpareZeros),
            _ => all.extend(values.next().and_then(|value| of_written(field, value))),
        }
    }
    if let Err(fault) = encoded.outcome {
        all.extend(of_fault(
            &asked.table.fields,
            fault,
            values.next(),
            &case.text,
        ));
    }
    all
}

/// The Rust has neither 7 nor 8.
fn whole(asked: &Asked, case: &Case) -> Option<Reason> {
    if !asked.is_accepted {
        return Some(Reason::RefusedTable);
    }
    (case.size > PAYLOAD_MAX).then_some(Reason::LongBuffer)
}

/// A value that is written.
fn of_written(field: &Field, value: Given) -> Option<Reason> {
    match (field.kind, value) {
        (_, Given::Number(value)) => of_number(field, value),
        (Kind::StringFix, Given::Bytes { length, .. }) => {
            (!is_of_width(field, length)).then_some(Reason::FixedText)
        }
        (Kind::StringLau, Given::Bytes { encoding: None, .. }) => Some(Reason::AbsentText),
        _ => None,
    }
}

fn is_of_width(field: &Field, length: u64) -> bool {
    field
        .width
        .is_some_and(|width| u64::from(width) == 8 * length)
}

fn of_number(field: &Field, value: Value) -> Option<Reason> {
    let case = number::Case::new(number_field(field), Call::RawOf(value));
    reason(&case).map(Reason::Number)
}

/// What the walk stops at, with the value that comes next.
fn of_fault(fields: &[Field], fault: Fault, value: Option<Given>, text: &[u8]) -> Option<Reason> {
    let stopped_at = match fault {
        Fault::Elements { .. } => return Some(Reason::CountCut),
        Fault::Bits { field, .. }
        | Fault::OutOfRange { field }
        | Fault::OtherKind { field }
        | Fault::TooLong { field } => &fields[field],
        Fault::Values(_) | Fault::Length(_) | Fault::Table(_) => return None,
    };
    match (fault, value?) {
        _ if !takes_value(stopped_at) => None,
        (_, Given::Number(value)) => of_number(stopped_at, value),
        (
            Fault::Bits { refusal, .. },
            Given::Bytes {
                length, encoding, ..
            },
        ) => of_bits(stopped_at, refusal, length, encoding),
        (
            Fault::TooLong { .. },
            Given::Bytes {
                place,
                length,
                encoding,
            },
        ) => {
            let end = u128::from(place) + u128::from(length);
            let whole = length.saturating_add(encoding.is_some().into());
            let is_there = end <= text.len() as u128 && whole <= RUST_BYTES;
            of_long(stopped_at, length).filter(|_| is_there)
        }
        _ => None,
    }
}

/// 3 and 2 of texts and bytes. An absent StringLau asks for its first byte on both sides.
fn of_bits(field: &Field, refusal: Refusal, length: u64, encoding: Option<u8>) -> Option<Reason> {
    let is_cut = matches!(refusal, Refusal::BeyondBits { .. });
    match field.kind {
        Kind::StringLau if encoding.is_none() => None,
        Kind::StringLz | Kind::StringLau if is_cut => Some(Reason::TextCut),
        Kind::StringLz | Kind::StringLau => Some(Reason::TextUnaligned),
        Kind::StringFix if is_cut && !is_of_width(field, length) => Some(Reason::FixedText),
        _ => is_cut.then_some(Reason::BytesCut),
    }
}

fn of_long(field: &Field, length: u64) -> Option<Reason> {
    match field.kind {
        Kind::StringFix => Some(Reason::FixedText),
        Kind::StringLz | Kind::StringLau => (length > TEXT_MAX).then_some(Reason::LongText),
        _ => None,
    }
}
