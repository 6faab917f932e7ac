//! Every small table: of a single field, and of a few fields with one or two sets.
use super::words::{
    KIND, MARK, QUARTERS, RESOLUTION, RESOLUTIONS, SIGNED, WIDTH, WIDTHS, head, put,
};
use model::numbers::Kind;

/// The codes of the kinds, one beyond, and the last of all.
const CODES: [u64; 21] = [
    0, 1, 2, 3, 4, 5, 6, 7, 8, 9, 10, 11, 12, 13, 14, 15, 16, 17, 18, 19, 255,
];

const MAXIMA: [u64; 4] = [0, 1, 255, 256];

/// Calls `each` with every table of one field: of each kind, at each width below `widths` and at those
/// that are limits, with each sign, mark and chosen resolution.
pub fn single_fields(widths: u64, each: &mut dyn FnMut(&[u64])) {
    let limits = WIDTHS.into_iter().filter(|&width| width >= widths);
    for width in (0..widths).chain(limits) {
        for code in CODES {
            for rest in signs_and_scales() {
                let mut word = rest;
                put(&mut word, KIND, code);
                put(&mut word, WIDTH, width);
                each(&[head(1, 0, 0, 0), word]);
            }
        }
    }
}

/// Under mark 0 only a resolution without bits is none, and under 3 there is none.
fn signs_and_scales() -> impl Iterator<Item = u64> {
    let scales = (0..4).flat_map(|mark| RESOLUTIONS.map(|resolution| (mark, resolution)));
    scales.flat_map(|(mark, resolution)| {
        [0, 1].map(|sign| {
            let mut word = 0;
            put(&mut word, SIGNED, sign);
            put(&mut word, MARK, mark);
            put(&mut word, RESOLUTION, resolution);
            word
        })
    })
}

/// Calls `each` with every length and every minimum up to a little over the limit.
pub fn lengths(each: &mut dyn FnMut(&[u64])) {
    for length in 0..=260 {
        for minimum in 0..=260 {
            each(&[head(1, 0, length, minimum), small_field(Kind::Number)]);
        }
    }
}

/// Calls `each` with every number of fields and of sets up to a little over the limits; there is no set
/// to be found, or one that only covers field 1.
pub fn counts(each: &mut dyn FnMut(&[u64])) {
    for fields in 0..=70 {
        for sets in 0..=8 {
            let mut words = vec![head(fields, sets, 0, 0)];
            words.extend((0..fields).map(|_| small_field(Kind::Number)));
            each(&words);
            words.push(set_word([1, 1, 0, 1]));
            each(&words);
        }
    }
}

/// Calls `each` with every set of a table of up to `most` fields, each of which is a Number, a text
/// without a width or a StringLz.
pub fn one_set(most: usize, each: &mut dyn FnMut(&[u64])) {
    let kinds = [Kind::Number, Kind::StringLau, Kind::StringLz];
    for count in 1..=most {
        for fields in rows(count, &kinds.map(small_field)) {
            for places in rows(3, &up_to(count as u64 + 1)) {
                for maximum in MAXIMA {
                    let set = set_word([places[0], places[1], places[2], maximum]);
                    each(&table(&fields, &[set]));
                }
            }
        }
    }
}

/// Calls `each` with every two sets on a table of up to `most` fields, each of which is a Number or a
/// text without a width.
pub fn two_sets(most: usize, each: &mut dyn FnMut(&[u64])) {
    let kinds = [Kind::Number, Kind::StringLau];
    for count in 1..=most {
        for fields in rows(count, &kinds.map(small_field)) {
            for p in rows(6, &up_to(count as u64 + 1)) {
                let sets = [[p[0], p[1], p[2], 1], [p[3], p[4], p[5], 255]];
                each(&table(&fields, &sets.map(set_word)));
            }
        }
    }
}

fn up_to(most: u64) -> Vec<u64> {
    (0..=most).collect()
}

/// Every row of `count` of the choices.
fn rows(count: usize, choices: &[u64]) -> impl Iterator<Item = Vec<u64>> {
    let base = choices.len();
    (0..base.pow(count as u32)).map(move |number| {
        let digit = |place| number / base.pow(place as u32) % base;
        (0..count).map(|place| choices[digit(place)]).collect()
    })
}

/// A field that the rules accept by itself.
fn small_field(kind: Kind) -> u64 {
    let mut word = kind as u64;
    if kind == Kind::Number {
        put(&mut word, WIDTH, 8);
    }
    word
}

fn set_word(values: [u64; 4]) -> u64 {
    let mut word = 0;
    for (part, value) in QUARTERS.into_iter().zip(values) {
        put(&mut word, part, value);
    }
    word
}

fn table(fields: &[u64], sets: &[u64]) -> Vec<u64> {
    let head = head(fields.len(), sets.len(), 0, 0);
    [&[head], fields, sets].concat()
}
