//! Small tables whose payloads are gone through one by one.
use super::case::Case;
use crate::payload::exhaustive::{after, every_counter, every_kind};
use crate::tables::built_in::{bare, field, number, set, sized, table};
use crate::tables::words::pack;
use model::numbers::Kind;
use model::tables::{self, Table};

/// What is done with the cases of a table.
type Each<'a> = &'a mut dyn FnMut(Vec<Case>);

fn cases(table: &Table, payloads: impl Iterator<Item = Vec<u8>>) -> Vec<Case> {
    let words = pack(table);
    payloads
        .map(|payload| Case::usual(words.clone(), payload))
        .collect()
}

/// Every set of cases, with counters of up to so many bits.
pub fn all(counter_bits: u32, each: Each) {
    every_kind(|table, field, before| {
        let bits = before + field.width.unwrap_or(0);
        each(cases(table, ends(bits)));
    });
    texts(each);
    fixed_texts(each);
    fillings(each);
    // With room for few elements or many.
    every_counter(counter_bits, |table, _, raw| {
        each(cases(table, (0..=8).map(|size| counted(raw, size))));
    });
}

/// Widths of a number that a field follows: none, and one that leaves it aligned or not.
const BEFORE: [u32; 3] = [0, 4, 8];

/// Every length byte of both texts, with as much as it asks for, one byte more and one less, and a little.
fn texts(each: Each) {
    for kind in [Kind::StringLz, Kind::StringLau] {
        for before in BEFORE {
            let table = table(&after(before, bare(kind)), &[]);
            for length in 0..=u8::MAX {
                let payloads = text_payloads(before, length);
                each(cases(&table, payloads));
            }
        }
    }
}

/// The bits before the text are ones, all behind the length is zero, ones or text.
fn text_payloads(before: u32, length: u8) -> impl Iterator<Item = Vec<u8>> {
    let start = u64::from(length) << before | ((1 << before) - 1);
    let head = before.div_ceil(8) as usize + 1;
    let whole = head + usize::from(length);
    let sizes = [head - 1, head, head + 1, whole - 1, whole, whole + 1, 223];
    sizes.into_iter().flat_map(move |size| {
        [0x00, 0x10, 0x41, 0xFF].map(|rest| {
            let mut payload = vec![rest; 10.max(size)];
            payload[..8].copy_from_slice(&start.to_le_bytes());
            payload[head..].fill(rest);
            payload.truncate(size.min(223));
            payload
        })
    })
}

fn counted(raw: u64, size: usize) -> Vec<u8> {
    let mut payload = raw.to_le_bytes().to_vec();
    payload.truncate(size);
    payload
}

/// Every length and minimum up to 9, or none, and every payload up to one byte more.
fn fillings(each: Each) {
    for length in 0..=9 {
        for minimum in 0..=9 {
            let table = sized(length, minimum, &[number(16), field(Kind::StringFix, 24)]);
            if tables::check(&table).is_ok() {
                let payloads = (0..=10).map(|size| vec![0x41; size]);
                each(cases(&table, payloads));
            }
        }
    }
}

/// A StringFix around the size from which on it may stop early: last, not last, in a set; aligned or not.
fn fixed_texts(each: Each) {
    for bytes in 31..=35 {
        let text = field(Kind::StringFix, 8 * bytes);
        for before in BEFORE {
            let mut followed = after(before, text);
            followed.push(number(8));
            let mut tables = vec![table(&after(before, text), &[]), table(&followed, &[])];
            if before > 0 {
                tables.push(table(&after(before, text), &[set(1, 1, 0, 2)]));
            }
            for table in tables {
                each(cases(&table, (0..=75).map(|size| vec![0x41; size])));
            }
        }
        // Behind a text, which takes bits that it does not declare, a set's last field is cut short.
        let fields = [number(8), bare(Kind::StringLau), text];
        let table = table(&fields, &[set(1, 2, 0, 2)]);
        let payload = |size: usize| [vec![1, 1], vec![0x41; size]].concat();
        each(cases(&table, (0..=40).map(payload)));
    }
}

/// Raws of zeros, of ones, the largest positive, and one byte too few.
fn ends(bits: u32) -> impl Iterator<Item = Vec<u8>> {
    let size = bits.div_ceil(8) as usize;
    let mut largest = vec![0xFF; size];
    largest[size - 1] = (0xFFu16 >> (8 * size as u32 - bits) >> 1) as u8;
    [
        vec![0x00; size],
        vec![0xFF; size],
        largest,
        vec![0xFF; size - 1],
        vec![0x5A; size + 1],
    ]
    .into_iter()
    .filter(|payload| payload.len() <= 223)
}
