//! That the sides of the benchmark do the same work: ours and the Rust give the same readings, and the
//! plain decoder their values.
use super::kept::{Kept, keep};
use super::lent::{Lent, MOST, PGN};
use super::plain::{self, Position};
use super::positions::Part;
use crate::readings::boundary::records::{self, COUNT, RECORD};
use crate::samopute::{self, CReading, Decoded};
use korri_n2k::core::PgnDescriptor;
use model::reading::{Content, PADDING, Reading};

pub fn check(words: &[u64], table: &'static PgnDescriptor, part: Part) {
    for payload in part.payloads() {
        let rust = by_rust(table, payload);
        let by_words = by_ours(|padding, readings, answer| {
            samopute::decode(words, payload, padding, readings, answer)
        });
        assert_eq!(by_words, rust, "ours and the Rust");
        assert_eq!(
            by_run(words, payload),
            rust,
            "ours into structs and the Rust"
        );
        let by_pgn = by_ours(|padding, readings, answer| {
            samopute::decode_pgn(PGN, payload, padding, readings, answer)
        });
        assert_eq!(by_pgn, rust, "ours by PGN and the Rust");
        let values: Vec<(u8, u64)> = rust.iter().map(|one| (one.kind, one.bits)).collect();
        assert_eq!(plain_values(payload), values, "plain and the Rust");
    }
}

fn by_rust(table: &'static PgnDescriptor, payload: &[u8]) -> Vec<Kept> {
    let mut records = [Kept::default(); MOST];
    let count = keep(table, payload, &mut records).expect("the payload is whole");
    records[..count].to_vec()
}

fn by_ours(call: impl Fn(&mut [u8], &mut [u8], &mut Decoded) -> u32) -> Vec<Kept> {
    let mut lent = Lent::new();
    let status = call(&mut lent.padding, &mut lent.readings, &mut lent.answer);
    assert_eq!(status, 0);
    let (records, _) = lent.readings[COUNT..].as_chunks::<RECORD>();
    let records = records.iter().take(lent.answer[0] as usize);
    records.map(|one| kept(records::numbers(one))).collect()
}

fn by_run(words: &[u64], payload: &[u8]) -> Vec<Kept> {
    let (mut padding, mut answer) = ([0; PADDING], [0; 6]);
    let mut structs = [CReading::EMPTY; MOST];
    let status = samopute::decode_run(words, payload, &mut padding, &mut structs, &mut answer);
    assert_eq!(status, 0);
    let structs = structs.iter().take(answer[0] as usize);
    structs.map(|one| kept(one.numbers())).collect()
}

fn kept(numbers: [u64; 8]) -> Kept {
    let reading = records::reading(numbers).expect("a reading");
    let Reading {
        content: Content::Number { raw, value },
        ..
    } = reading
    else {
        panic!("every field of the message is a number");
    };
    Kept {
        field: reading.field,
        element: reading.element,
        raw: Some(raw),
        kind: value.kind as u8 + 1,
        bits: value.bits,
        is_available: reading.available,
    }
}

fn plain_values(payload: &[u8]) -> Vec<(u8, u64)> {
    let mut position = Position::new();
    assert!(plain::decode(payload, &mut position));
    let values = position.values().into_iter();
    values
        .map(|value| (value.kind as u8 + 1, value.bits))
        .collect()
}
