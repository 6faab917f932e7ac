//! Any fields, as the interface takes them: of every kind and of none, of every width and of widths that
//! no number has, with every mark. Those that the table rules allow are among them.
use super::case::{Call, field_of};
use super::cases::Amount;
use super::value_kinds::{VALUE_KINDS, is_value, value_code};
use super::values::values;
use crate::random::Random;
use crate::samopute::CField;
use model::numbers::{Field, Value};

/// The codes of the kinds, those beyond the last, and those that a cut to fewer bits would make a kind.
pub fn codes() -> impl Iterator<Item = u32> {
    (0..=20).chain([255, 256, 257, 65_536, u32::MAX])
}

/// Widths over 64: beside the limits of other rules, and those that a cut to fewer bits would mend.
const WIDE: [u32; 25] = [
    65,
    66,
    71,
    72,
    127,
    128,
    129,
    255,
    256,
    257,
    264,
    288,
    320,
    1783,
    1784,
    1785,
    65_535,
    65_536,
    65_537,
    65_568,
    65_600,
    1 << 31,
    u32::MAX - 7,
    u32::MAX - 1,
    u32::MAX,
];

/// Marks that are neither single nor double and do not fit a word.
const LARGE_MARKS: [u32; 5] = [4, 5, 256, 257, u32::MAX];

/// What says that a field is signed.
const SIGNS: [u32; 5] = [1, 1, 2, 256, 1 << 31];

/// Resolutions' bits: of real fields, at and beside the limits of rule d, and those that are no such number.
const RESOLUTIONS: [u32; 16] = [
    1,
    0x3F80_0000,
    0x3C23_D70A,
    0x3A83_126F,
    0x1F80_0000,
    0x1F7F_FFFF,
    0x4980_0000,
    0x4980_0001,
    0x0080_0000,
    0x7F7F_FFFF,
    0x7F80_0000,
    0x7FC0_0000,
    0x7F80_0001,
    0x8000_0000,
    0xBF80_0000,
    0xFF80_0000,
];

/// Kinds' numbers that no value has.
const NO_KINDS: [u32; 7] = [0, 12, 13, 255, 256, 260, u32::MAX];

/// The calls on a field.
pub struct Calls {
    pub raws: Vec<Call>,
    pub values: Vec<Call>,
}

/// Fields of a kind's code: every width, sign and mark, each without resolution and with some. One that is
/// unscaled stands for all resolutions, and comes as often as they do.
pub fn fields(code: u32, amount: Amount, random: &mut Random) -> Vec<CField> {
    let mut all = Vec::new();
    for width in (0..=64).chain(WIDE) {
        for is_signed in [0, random.among(&SIGNS)] {
            for mark in [0, 1, 2, 3, random.among(&LARGE_MARKS)] {
                let bare = if mark == 0 { amount.inputs } else { 1 };
                let some = (0..amount.inputs).map(|_| any_resolution(random));
                let resolutions: Vec<u32> = some.chain(vec![0; bare]).collect();
                all.extend(resolutions.into_iter().map(|resolution| CField {
                    kind: code,
                    width,
                    is_signed,
                    mark,
                    resolution,
                }));
            }
        }
    }
    all
}

fn any_resolution(random: &mut Random) -> u32 {
    match random.up_to(3) {
        0 => random.next() as u32,
        _ => random.among(&RESOLUTIONS),
    }
}

/// Raws with bits above the width too, values of every kind, and what is no value.
pub fn calls(passed: &CField, amount: Amount, random: &mut Random) -> Calls {
    Calls {
        raws: raws(passed.width, random).map(Call::Scale).into(),
        values: any_values(passed, amount, random),
    }
}

fn raws(width: u32, random: &mut Random) -> [u64; 7] {
    let ones = u64::MAX
        .checked_shr(64u32.saturating_sub(width))
        .unwrap_or(0);
    let above = random.next() & !ones;
    [
        0,
        u64::MAX,
        ones,
        ones >> 1,
        ones >> 1 | above,
        random.next(),
        random.of_any_length(),
    ]
}

/// Some of the values that a field of the width, or of 64 bits, is asked.
fn any_values(passed: &CField, amount: Amount, random: &mut Random) -> Vec<Call> {
    const EACH: usize = 8;
    let field = field_of(passed);
    let width = match field.width {
        width @ 1..=64 => width,
        _ => 64,
    };
    let once = Amount {
        inputs: 1,
        ..amount
    };
    let known = values(&Field { width, ..field }, once, random);
    let mut all: Vec<Call> = (0..EACH)
        .map(|_| Call::RawOf(random.among(&known)))
        .collect();
    all.push(Call::RawOf(any_value(random)));
    all.push(any_none(random));
    all
}

/// A value of any kind.
fn any_value(random: &mut Random) -> Value {
    loop {
        let kind = random.among(&VALUE_KINDS);
        let bits = random.of_any_length();
        if is_value(value_code(kind), bits) {
            return Value { kind, bits };
        }
    }
}

/// A kind that there is not, or bits that are none of their kind.
fn any_none(random: &mut Random) -> Call {
    loop {
        let kind = match random.up_to(2) {
            0 => random.among(&NO_KINDS),
            _ => value_code(random.among(&VALUE_KINDS)),
        };
        let bits = random.of_any_length();
        if !is_value(kind, bits) {
            return Call::RawOfNone { kind, bits };
        }
    }
}
