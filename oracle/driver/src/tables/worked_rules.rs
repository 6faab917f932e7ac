//! Tables that are broken. Each has two faults at least, of which the second is of a later rule, or of the same
//! rule at a higher index. One of a later rule mostly stands before the first, so that going by the index would
//! be caught.
use super::built_in::{
    BINARY, FIX, LAU, LZ, bare, double, field, mismarked, number, set, signed, single, sized,
};
use super::words::pack;
use super::worked::{Case, broken};
use model::numbers::{Kind, RESOLUTION_MAX, RESOLUTION_MIN};
use model::tables::{Field, Set};

/// The tables of each rule.
pub fn all() -> Vec<Case> {
    let rules = [
        rule_a(),
        rule_b(),
        rule_c(),
        rule_d(),
        rule_e(),
        rule_f(),
        rule_g(),
        rule_h(),
    ];
    rules.into_iter().flatten().collect()
}

fn rule_a() -> Vec<Case> {
    let broken_size = |length, minimum, field| Case {
        words: pack(&sized(length, minimum, &[field])),
        answer: Err(('a', 0)),
    };
    vec![
        broken('a', 0, &[], &[set(0, 1, 0, 0)]),
        broken('a', 0, &[number(0); 65], &[]),
        broken('a', 0, &[number(8); 6], &[set(1, 1, 0, 0); 5]),
        broken_size(224, 0, field(Kind::Decimal, 8)),
        broken_size(8, 9, field(Kind::Float, 31)),
        broken_size(0, 224, signed(field(Kind::Float, 32))),
        broken_size(300, 224, bare(LZ)),
    ]
}

fn rule_b() -> Vec<Case> {
    let b = |index, fields: &[Field]| broken('b', index, fields, &[]);
    let decimal = field(Kind::Decimal, 8);
    let unknown = field(Kind::Unimplemented, 8);
    vec![
        b(1, &[number(0), decimal]),
        b(1, &[number(8), unknown, decimal]),
        b(0, &[decimal, unknown]),
        b(2, &[signed(field(Kind::Spare, 8)), number(8), unknown]),
        broken('b', 1, &[bare(LZ), decimal], &[set(1, 1, 1, 0)]),
        b(1, &[mismarked(number(8), 1.0), decimal]),
    ]
}

fn rule_c() -> Vec<Case> {
    let c = |index, fields: &[Field]| broken('c', index, fields, &[]);
    let scaled_float = single(field(Kind::Float, 32), 1.0);
    let signed_time = signed(field(Kind::Time, 32));
    let bytes = |width| field(BINARY, width);
    let text = |width| field(FIX, width);
    vec![
        c(1, &[scaled_float, number(65)]),
        c(1, &[text(1784), text(12), field(Kind::Float, 31)]),
        c(2, &[signed_time, bytes(64), field(LAU, 8)]),
        c(1, &[bytes(63), bytes(0), text(1792)]),
        c(1, &[bytes(1784), bytes(1792), text(0)]),
        c(0, &[number(257), signed(field(Kind::Reserved, 8))]),
        c(2, &[bare(LZ), bytes(1784), bytes(65)]),
        c(1, &[field(Kind::Date, 24), field(LZ, 1)]),
        broken('c', 0, &[text(4), number(8)], &[set(1, 1, 0, 0)]),
        c(1, &[mismarked(number(8), 1.0), number(65)]),
    ]
}

fn rule_d() -> Vec<Case> {
    let d = |index, fields: &[Field]| broken('d', index, fields, &[]);
    let byte = number(8);
    let below = RESOLUTION_MIN.next_down();
    let above = RESOLUTION_MAX.next_up();
    let signed_gap = signed(field(Kind::Reserved, 8));
    let lookup = field(Kind::Lookup, 8);
    let bits = field(Kind::BitLookup, 8);
    vec![
        d(1, &[signed_gap, single(bits, 1.0)]),
        d(0, &[single(byte, f32::NAN), single(byte, f32::INFINITY)]),
        d(1, &[field(Kind::Date, 24), double(byte, above)]),
        d(1, &[bare(LZ), double(lookup, below)]),
        d(
            0,
            &[single(byte, -1.0), single(field(Kind::Float, 32), 1.0)],
        ),
        d(0, &[double(field(BINARY, 7), 1.0), single(byte, 0.0)]),
        // A mark that is neither, whatever the kind and the resolution.
        d(1, &[signed_gap, mismarked(byte, 0.01)]),
        d(1, &[field(Kind::Mmsi, 8), mismarked(lookup, 0.0)]),
        d(1, &[bare(LZ), mismarked(field(Kind::Reserved, 8), 1.0)]),
        d(0, &[mismarked(bits, 0.0), single(bits, 1.0)]),
        broken(
            'd',
            1,
            &[byte, mismarked(bare(LAU), 1.0), mismarked(byte, 1.0)],
            &[set(1, 1, 1, 0)],
        ),
    ]
}

fn rule_e() -> Vec<Case> {
    let e = |index, fields: &[Field]| broken('e', index, fields, &[]);
    let duration = field(Kind::Duration, 16);
    let mmsi = |width| field(Kind::Mmsi, width);
    let date = |width| field(Kind::Date, width);
    let time = single(field(Kind::Time, 32), 1.0);
    let signed_float = signed(field(Kind::Float, 32));
    let fine = signed(single(duration, 1.0));
    vec![
        e(2, &[bare(LZ), number(8), date(24)]),
        e(1, &[fine, signed(duration), signed_float]),
        e(1, &[mmsi(32), mmsi(64), signed(field(Kind::BitLookup, 8))]),
        broken(
            'e',
            1,
            &[signed(number(8)), signed(time)],
            &[set(1, 1, 1, 0)],
        ),
        e(
            1,
            &[
                double(date(24), 1.0),
                signed(double(date(16), 1.0)),
                date(8),
            ],
        ),
        e(0, &[signed(mmsi(16)), signed_float]),
    ]
}

fn rule_f() -> Vec<Case> {
    let (lz, lau) = (bare(LZ), bare(LAU));
    vec![
        broken('f', 0, &[lz, number(8), lz], &[]),
        broken('f', 1, &[number(8), lz], &[set(1, 65_535, 0, 1)]),
        broken('f', 1, &[number(8), lz, lau], &[set(2, 1, 0, 1)]),
        broken('f', 2, &[number(8), number(8), lz], &[set(1, 2, 2, 1)]),
        broken(
            'f',
            2,
            &[number(8), number(8), lz],
            &[set(1, 0, 0, 1), set(2, 1, 0, 1)],
        ),
    ]
}

fn rule_g() -> Vec<Case> {
    let fields = [number(8); 4];
    let with_text = [number(8), bare(LAU), number(8)];
    let g = |index, sets: &[Set]| broken('g', index, &fields, sets);
    vec![
        g(1, &[set(1, 2, 0, 1), set(2, 1, 0, 1), set(3, 1, 0, 0)]),
        g(1, &[set(2, 1, 3, 1), set(1, 1, 0, 1)]),
        g(1, &[set(1, 1, 0, 1), set(1, 1, 0, 1), set(3, 1, 3, 1)]),
        g(0, &[set(1, 0, 0, 1), set(2, 1, 0, 256)]),
        g(0, &[set(3, 2, 5, 1), set(1, 1, 0, 1)]),
        g(1, &[set(1, 1, 1, 255), set(2, 1, 0, 256)]),
        g(0, &[set(1, 1, 1, 0), set(2, 1, 2, 1)]),
        g(2, &[set(1, 1, 9, 1), set(2, 1, 0, 1), set(4, 1, 0, 1)]),
        broken('g', 0, &with_text, &[set(1, 1, 1, 5)]),
        broken('g', 1, &with_text, &[set(0, 1, 0, 1), set(1, 1, 0, 1)]),
    ]
}

fn rule_h() -> Vec<Case> {
    let fields = [number(8); 5];
    // The counter of the last set is 33 bits wide.
    let around = |counter| {
        let (before, after) = (number(32), number(33));
        [before, counter, number(8), after, number(8), number(8)]
    };
    let first = |counter| {
        let sets = [set(2, 1, 1, 1), set(4, 2, 3, 1)];
        broken('h', 0, &around(counter), &sets)
    };
    let second = |counter| {
        let sets = [set(2, 1, 0, 1), set(4, 1, 1, 1), set(5, 1, 3, 1)];
        broken('h', 1, &around(counter), &sets)
    };
    vec![
        broken('h', 0, &fields, &[set(1, 1, 1, 1), set(2, 1, 4, 1)]),
        broken(
            'h',
            1,
            &fields,
            &[set(1, 1, 0, 1), set(2, 1, 1, 1), set(3, 1, 3, 1)],
        ),
        broken('h', 0, &fields, &[set(0, 1, 0, 1), set(3, 2, 65_535, 255)]),
        broken('h', 0, &fields, &[set(1, 1, 4, 1), set(2, 1, 2, 1)]),
        second(signed(number(8))),
        second(single(number(8), 1.0)),
        second(field(Kind::IndirectLookup, 8)),
        second(number(33)),
        second(field(Kind::Reserved, 8)),
        first(signed(field(Kind::Lookup, 8))),
        first(bare(LAU)),
    ]
}
