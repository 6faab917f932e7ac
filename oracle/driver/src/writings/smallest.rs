//! What makes a case smaller than another.
use super::case::Case;
use super::laid::Laid;
use super::records::{self, RECORD, record};
use crate::payload::smaller::{
    Smaller, few_fields, shorter, smaller_bytes, smaller_tables, smaller_words, without_field,
};
use crate::tables::words::pack;
use model::numbers::Value;
use model::tables::Table;
use model::writing::Given;

impl Smaller for Case {
    fn is_smaller(&self, other: &Case) -> bool {
        size(self) < size(other)
    }

    fn steps(&self) -> Vec<Case> {
        let mut all = Vec::new();
        let with_words = |words: Vec<u64>| Case {
            words,
            ..self.clone()
        };
        let with_text = |text: Vec<u8>| Case {
            text,
            ..self.clone()
        };
        let with_values = |values: Vec<u8>| Case {
            values,
            ..self.clone()
        };
        if let Some(table) = few_fields(&self.words) {
            all.extend(without_values(&table, self));
            all.extend(smaller_tables(table).map(|table| with_words(pack(&table))));
        }
        all.extend(fewer(&self.values).map(with_values));
        all.extend(shorter(&self.text).map(with_text));
        for size in [0, self.size / 2, self.size.saturating_sub(1)] {
            all.push(Case {
                size,
                ..self.clone()
            });
        }
        all.extend(smaller_words(&self.words).map(with_words));
        all.extend(smaller_values(&self.values).map(with_values));
        all.extend(smaller_bytes(&self.text).map(with_text));
        all
    }
}

/// Fewer fields and sets come first, then fewer values, less text and a smaller buffer, then the numbers.
fn size(case: &Case) -> ([usize; 4], &[u64], Vec<u64>, &[u8]) {
    let lengths = [case.words.len(), case.values.len(), case.text.len()];
    let [words, values, text] = lengths;
    (
        [words, values, text, case.size],
        &case.words,
        numbers(&case.values),
        &case.text,
    )
}

/// The numbers of records, low byte first.
fn numbers(values: &[u8]) -> Vec<u64> {
    let number = |bytes: &[u8]| {
        let bytes = bytes.iter().rev();
        bytes.fold(0, |number, &byte| number << 8 | u64::from(byte))
    };
    values.chunks(8).map(number).collect()
}

/// A field outside sets taken out together with its value.
fn without_values(table: &Table, case: &Case) -> Vec<Case> {
    let laid = Laid::new(table, &case.given());
    let places = (0..table.fields.len()).rev();
    let places = places.filter_map(|field| Some((field, laid.place(field)?)));
    let taken_out = places.filter_map(|(field, place)| {
        Some(Case {
            words: pack(&without_field(table, field)),
            values: without(&case.values, place)?,
            ..case.clone()
        })
    });
    taken_out.collect()
}

/// The records but one.
fn without(values: &[u8], place: usize) -> Option<Vec<u8>> {
    let start = place.checked_mul(RECORD)?;
    let behind = values.len().min(start.checked_add(RECORD)?);
    Some([values.get(..start)?, values.get(behind..)?].concat())
}

fn fewer(values: &[u8]) -> impl Iterator<Item = Vec<u8>> {
    let count = values.len().div_ceil(RECORD);
    let less = values[..values.len() / 2 / RECORD * RECORD].to_vec();
    let cut = values[..values.len().saturating_sub(1)].to_vec();
    let out = (0..count).rev().filter_map(|place| without(values, place));
    [less, cut].into_iter().chain(out)
}

/// The values with one of them written plainly, or with a lesser kind, number, place or length.
fn smaller_values(values: &[u8]) -> impl Iterator<Item = Vec<u8>> {
    let places = (0..values.len() / RECORD).map(|place| place * RECORD);
    places.flat_map(move |at| {
        let value = records::given(&values[at..at + RECORD]);
        let mut lesser = vec![value, Given::Nothing];
        lesser.extend(lesser_values(value));
        lesser.into_iter().map(move |value| {
            let mut values = values.to_vec();
            values[at..at + RECORD].copy_from_slice(&record(value));
            values
        })
    })
}

fn lesser_values(value: Given) -> Vec<Given> {
    match value {
        Given::Number(Value { kind, bits }) => {
            let numbers = lesser(bits).map(|bits| Given::Number(Value { kind, bits }));
            numbers.collect()
        }
        Given::Bytes {
            place,
            length,
            encoding,
        } => {
            let bytes = |place, length, encoding| Given::Bytes {
                place,
                length,
                encoding,
            };
            let mut all = vec![bytes(place, length, None)];
            all.extend(lesser(place).map(|place| bytes(place, length, encoding)));
            all.extend(lesser(length).map(|length| bytes(place, length, encoding)));
            all.extend(encoding.map(|_| bytes(place, length, Some(0))));
            all
        }
        Given::Nothing => Vec::new(),
    }
}

/// None, one bit less from the highest on, the half, one less.
fn lesser(number: u64) -> impl Iterator<Item = u64> {
    let bits = (0..64).rev().filter(move |bit| number >> bit & 1 == 1);
    let cleared = bits.map(move |bit| number ^ 1 << bit);
    let less = [number / 2, number.saturating_sub(1)];
    [0].into_iter().chain(cleared).chain(less)
}
