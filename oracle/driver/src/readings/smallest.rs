//! What makes a case smaller than another.
use super::answer;
use super::case::{AMPLE, Case};
use crate::payload::smaller::{
    Smaller, few_fields, shorter, smaller_bytes, smaller_tables, smaller_words, without_field,
};
use crate::tables::words::pack;
use model::reading::PADDING;
use model::tables::Table;

impl Smaller for Case {
    fn is_smaller(&self, other: &Case) -> bool {
        size(self) < size(other)
    }

    fn steps(&self) -> Vec<Case> {
        let mut all = Vec::new();
        let with_words = |words: Vec<u64>| Case {
            words,
            ..self.clone()
        };
        let with_payload = |payload: Vec<u8>| Case {
            payload,
            ..self.clone()
        };
        if let Some(table) = few_fields(&self.words) {
            all.extend(without_readings(&table, self));
            all.extend(smaller_tables(table).map(|table| with_words(pack(&table))));
        }
        all.extend(shorter(&self.payload).map(with_payload));
        all.push(Case {
            padding: PADDING,
            ..self.clone()
        });
        for room in [AMPLE, self.room / 2, self.room.saturating_sub(1)] {
            all.push(Case {
                room,
                ..self.clone()
            });
        }
        all.extend(smaller_words(&self.words).map(with_words));
        all.extend(smaller_bytes(&self.payload).map(with_payload));
        all
    }
}

/// Fewer fields and sets come first, then fewer bytes, then the usual run and room, then the numbers.
fn size(case: &Case) -> (usize, usize, bool, bool, &[u64], &[u8], u64) {
    let (words, payload) = (&case.words[..], &case.payload[..]);
    let unusual = (case.padding != PADDING, case.room != AMPLE);
    (
        words.len(),
        payload.len(),
        unusual.0,
        unusual.1,
        words,
        payload,
        case.room,
    )
}

/// A field that was read taken out of the table and out of the payload.
fn without_readings(table: &Table, case: &Case) -> Vec<Case> {
    let (answer, _) = answer::model(table, case);
    let readings = answer.readings.iter().rev();
    let outside = readings.filter(|reading| reading.element.is_none());
    outside
        .map(|reading| Case {
            words: pack(&without_field(table, reading.field)),
            payload: without_bits(&case.payload, reading.start, reading.bits),
            ..case.clone()
        })
        .collect()
}

/// The bits behind go down; ones fill the last byte. A filled payload has readings beyond its own bits.
fn without_bits(payload: &[u8], start: usize, bits: usize) -> Vec<u8> {
    let whole = 8 * payload.len();
    let (start, end) = (start.min(whole), (start + bits).min(whole));
    let kept = (0..start).chain(end..whole);
    let mut bytes = vec![0xFF; (whole - (end - start)).div_ceil(8)];
    for (to, from) in kept.enumerate() {
        if payload[from / 8] >> (from % 8) & 1 == 0 {
            bytes[to / 8] ^= 1 << (to % 8);
        }
    }
    bytes
}
