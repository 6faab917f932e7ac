//! Where the Rust parts from document 01 in what its caller has to have, which values in walk order cannot
//! show: it asks for a value of a skipped field and for the number of elements beside their counter, and
//! it takes a StringLau's first byte for the encoding byte. Each has to differ.
use super::answer::{Answer, Outcome};
use super::case::Case;
use super::records::records;
use super::worked::{byte, text};
use crate::case::hex;
use crate::payload::described::rust::described;
use crate::report::Report;
use crate::tables::built_in::{bare, field, number, set, table};
use crate::tables::words::pack;
use korri_n2k::core::{PgnBytes, PgnValue};
use korri_n2k::error::SerializationError;
use korri_n2k::infra::codec::engine::serialize;
use korri_n2k::infra::codec::traits::FieldAccess;
use model::numbers::Kind;
use model::tables::{Table, read};
use model::writing::Given;

pub fn run(report: &mut Report) {
    for kind in [Kind::Reserved, Kind::Spare] {
        let name = format!("the Rust wants a value for a {kind:?}");
        report.line(&name, skipped(kind));
    }
    let name = "the Rust takes elements from the array, not from the counter";
    report.line(name, elements());
    let name = "the Rust takes a text's first byte for the encoding byte";
    report.line(name, encoding());
}

/// A message whose fields have these values, and whose array has so many elements, each 1.
struct Message {
    fields: Vec<PgnValue>,
    elements: usize,
}

impl FieldAccess for Message {
    fn field(&self, id: &'static str) -> Option<PgnValue> {
        let field: usize = id.parse().ok()?;
        self.fields.get(field).cloned()
    }

    fn field_mut(&mut self, _id: &'static str, _value: PgnValue) -> Option<()> {
        None
    }

    fn repetitive_field(
        &self,
        _array: &'static str,
        _element: usize,
        _id: &'static str,
    ) -> Option<PgnValue> {
        Some(PgnValue::U8(1))
    }

    fn repetitive_count(&self, _array: &'static str) -> Option<usize> {
        Some(self.elements)
    }
}

/// What the Rust answers with a buffer of one byte or two.
fn rust(table: &Table, message: &Message, size: usize) -> String {
    let mut buffer = vec![0; size];
    let outcome = match serialize(message, &mut buffer, described(table)) {
        Ok(used) => format!("ok {used}"),
        Err(SerializationError::FieldNotFound { .. }) => "no value".to_string(),
        Err(error) => format!("{error:?}"),
    };
    format!("{outcome} | {}", hex(&buffer))
}

/// Document 01's answer to values.
fn here(table: &Table, values: &[Given], text: &[u8], size: usize) -> Answer {
    let case = Case {
        size,
        words: pack(table),
        values: records(values),
        text: text.to_vec(),
    };
    super::answer::model(&read(&case.words), &case).0
}

/// A skipped field alone, without a value.
fn skipped(kind: Kind) -> Result<String, String> {
    let table = table(&[field(kind, 1)], &[]);
    let message = Message {
        fields: Vec::new(),
        elements: 0,
    };
    let (there, here) = (rust(&table, &message, 1), here(&table, &[], &[], 1));
    let text = format!("no value: {there} there, {} here", here.text());
    match (there.as_str(), here.outcome) {
        ("no value | FF", Outcome::Used(1)) => Ok(text),
        _ => Err(text),
    }
}

/// A counter that says 2 before an array of 1.
fn elements() -> Result<String, String> {
    let table = table(&[number(8), number(8)], &[set(1, 1, 0, 2)]);
    let message = Message {
        fields: vec![PgnValue::U8(2)],
        elements: 1,
    };
    let there = rust(&table, &message, 2);
    let here = here(&table, &[byte(2), byte(1)], &[], 2).text();
    let text = format!("counter 2, one element 1: {there} there, {here} here");
    match (there.as_str(), here.as_str()) {
        ("ok 2 | 0201", "F 12 1 | 0201") => Ok(text),
        _ => Err(text),
    }
}

/// A text of one byte.
fn encoding() -> Result<String, String> {
    let table = table(&[bare(Kind::StringLau)], &[]);
    let mut bytes = PgnBytes::new();
    bytes.copy_from_slice(b"A");
    let message = Message {
        fields: vec![PgnValue::Bytes(bytes)],
        elements: 0,
    };
    let there = rust(&table, &message, 2);
    let here = here(&table, &[text(0, 1)], b"A", 2).text();
    let text = format!("41: {there} there, {here} here");
    match (there.as_str(), here.as_str()) {
        ("ok 2 | 0241", "F 11 0 | FFFF") => Ok(text),
        _ => Err(text),
    }
}
