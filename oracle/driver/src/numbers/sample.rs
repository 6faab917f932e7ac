//! The sample on numbers: a fixed list of cases and the answers of the oracle with stand-ins, then fields
//! that no table may have with the answers of the model, to be replayed without Rust.
use super::any_fields;
use super::case::{Answer, Call, Case, field_of};
use super::cases::{Amount, KINDS, any_field, raws};
use super::differences::reason;
use super::sides::{self, Asked};
use super::value_kinds::{is_odd_nan, value_code};
use super::values::values;
use crate::random::Random;
use crate::samopute::CField;
use crate::sampled::Sampled;
use model::numbers::{Field, Kind, Mark, Scale, Value, ValueKind, is_allowed, limits};

/// Raws of each kind of field, and values.
const RAWS: usize = 75;
const VALUES: usize = 90;

/// Raws and values of each kind, in fields that no table may have.
const OTHERS: usize = 5;

/// About one raw in so many is the field's largest number, which mostly is not available.
const LARGEST: usize = 5;

/// How many random inputs each field is drawn with.
const AMOUNT: Amount = Amount {
    resolutions: 0,
    inputs: 4,
};

pub fn print_cases() {
    for (case, _) in sample() {
        println!("{}", case.line());
    }
}

pub fn print_answers() {
    for (case, answer) in sample() {
        println!("{}", answer.line(&case));
    }
}

/// The cases and the answers.
fn sample() -> Vec<(Case, Answer)> {
    let mut sample = Sampled::new(Case::line);
    for case in papers() {
        sample.take(case, ask(&case));
    }
    for kind in KINDS {
        sample.draw(RAWS, |random| Some(any_scale(kind, random)));
        for (outcome, share) in shares(kind) {
            sample.draw(share, |random| any_raw_of(kind, outcome, random));
        }
    }
    for case in fixed_others() {
        sample.take(case, sides::model(&case));
    }
    for code in any_fields::codes() {
        for case in any_others(code, &mut sample.random) {
            sample.take(case, sides::model(&case));
        }
    }
    sample.taken
}

/// The answer of the oracle with stand-ins, which the Rust gives as well unless it is known to differ.
fn ask(case: &Case) -> Answer {
    let asked = Asked::new(&case.field);
    let answer = asked.standin(case);
    if reason(case).is_none() {
        assert_eq!(
            asked.rust(case, answer.values[3]),
            answer,
            "{}",
            case.line()
        );
    }
    answer
}

fn any_scale(kind: Kind, random: &mut Random) -> (Case, Answer) {
    let field = any_field(kind, random);
    let raw = if random.up_to(LARGEST - 1) == 0 {
        limits(field.width, field.signed).1 as u64
    } else {
        let raws = raws(&field, AMOUNT, random);
        random.among(&raws)
    };
    let case = Case::new(field, Call::Scale(raw));
    (case, ask(&case))
}

/// How many values of a kind of field end in each refusal, or in none. Every f32 is in a Float's range.
fn shares(kind: Kind) -> Vec<(u32, usize)> {
    let sixth = VALUES / 6;
    match kind {
        Kind::Float => vec![(0, VALUES - sixth), (11, sixth)],
        _ => vec![(0, 3 * sixth), (10, 2 * sixth), (11, sixth)],
    }
}

fn any_raw_of(kind: Kind, outcome: u32, random: &mut Random) -> Option<(Case, Answer)> {
    let field = any_field(kind, random);
    let values = values(&field, AMOUNT, random);
    let value = random.among(&values);
    if is_odd_nan(value) {
        return None;
    }
    let case = Case::new(field, Call::RawOf(value));
    let answer = ask(&case);
    (answer.number == outcome).then_some((case, answer))
}

/// The cases on numbers that document 01 gives, and those that its words decide where one could err.
fn papers() -> Vec<Case> {
    let mut all = vec![scale(12, true, None, 0x800)];
    for raw in [16_777_217, 16_777_219] {
        all.push(scale(25, false, Some(Mark::Single), raw));
    }
    for value in [255.4, 255.5, -0.4, -0.5] {
        all.push(raw_of(8, false, Value::double(value)));
    }
    for value in [-128.4, -128.5] {
        all.push(raw_of(8, true, Value::double(value)));
    }
    let far = (1u128 << 127) as f64;
    for value in [-2048.0, -2049.0, -far, -far * 2.0, -0.0] {
        all.push(raw_of(64, false, Value::double(value)));
    }
    // The half is added in f64.
    all.push(raw_of(8, false, Value::double(0.499_999_999_999_999_94)));
    all.push(raw_of(53, false, Value::double(((1u64 << 52) + 1) as f64)));
    let whole = Value::whole(ValueKind::I64, (1 << 53) + 1);
    all.push(raw_of(64, true, whole));
    all
}

/// A Number at resolution 1 if it has a mark.
fn number(width: u32, signed: bool, mark: Option<Mark>) -> Field {
    let resolution = 1.0;
    Field {
        kind: Kind::Number,
        width,
        signed,
        scale: mark.map(|mark| Scale { mark, resolution }),
    }
}

fn scale(width: u32, signed: bool, mark: Option<Mark>, raw: u64) -> Case {
    Case::new(number(width, signed, mark), Call::Scale(raw))
}

fn raw_of(width: u32, signed: bool, value: Value) -> Case {
    let field = number(width, signed, Some(Mark::Double));
    Case::new(field, Call::RawOf(value))
}

/// Kinds without a number, widths of none, marks that are neither, and which of these comes first.
fn fixed_others() -> Vec<Case> {
    const SOME: u32 = 0x3C23_D70A;
    let eight = |kind: Kind| (kind, 8, 0, 0);
    let wide = |width| (Kind::Number, width, 0, 0);
    let number = (Kind::Number, 8, 3, SOME);
    let bytes = |width| (Kind::Binary, width, 0, 0);
    let time = (Kind::Time, 8, 3, SOME);
    let small = Value::whole(ValueKind::U8, 0);
    let float = Value::single(0.0);
    vec![
        scale_any(eight(Kind::StringFix), 0),
        raw_any(eight(Kind::StringFix), small),
        raw_any(bytes(0), small),
        raw_any(bytes(8), small),
        scale_any(bytes(64), 0),
        scale_any(bytes(9), 0x1FF),
        scale_any(bytes(65), 0),
        raw_any(bytes(264), small),
        raw_any(bytes(257), small),
        scale_any(wide(0), 0),
        scale_any(wide(65), 0),
        scale_any(wide(257), 0),
        scale_any(wide(u32::MAX), 0),
        raw_any(wide(0), small),
        raw_any(wide(257), small),
        // 1 before the value's 11, and after that of what is no value.
        raw_any(wide(257), float),
        none_any(wide(257), ValueKind::U8, 300),
        none_any(wide(8), ValueKind::U8, 300),
        none_any(wide(8), ValueKind::I16, 0xFFFF),
        scale_any(number, 0x2A),
        scale_any((Kind::Number, 8, 0, SOME), 0xFF),
        scale_any((Kind::Number, 8, 3, 0), 0),
        scale_any((Kind::Number, 8, 4, SOME), 0),
        scale_any((Kind::Number, 8, 257, SOME), 0),
        scale_any(time, 1),
        scale_any((Kind::Duration, 8, 0, 1), 1),
        raw_any(number, Value::double(0.0)),
        raw_any(number, Value::whole(ValueKind::I8, 0)),
        raw_any(number, small),
        raw_any(time, Value::whole(ValueKind::I64, 1)),
        // Kinds that take no resolution.
        scale_any((Kind::BitLookup, 8, 3, SOME), 5),
        raw_any((Kind::BitLookup, 8, 0, SOME), small),
        scale_any((Kind::Float, 32, 3, SOME), 0x3F80_0000),
        // Bits above the width.
        scale_any((Kind::Number, 12, 0, 0), 0x1001),
        scale_any((Kind::Float, 16, 0, 0), 0x3F80_3F80),
        raw_any((Kind::Float, 16, 0, 0), Value::single(1.0)),
        scale_any(eight(Kind::Date), 0xFF),
    ]
}

/// An unsigned field by its kind, width, mark and resolution's bits.
type Unsigned = (Kind, u32, u32, u32);

fn any((kind, width, mark, resolution): Unsigned, call: Call) -> Case {
    let passed = CField {
        kind: kind as u32,
        width,
        is_signed: 0,
        mark,
        resolution,
    };
    Case::passed(passed, call)
}

fn scale_any(field: Unsigned, raw: u64) -> Case {
    any(field, Call::Scale(raw))
}

fn raw_any(field: Unsigned, value: Value) -> Case {
    any(field, Call::RawOf(value))
}

fn none_any(field: Unsigned, kind: ValueKind, bits: u64) -> Case {
    let kind = value_code(kind);
    any(field, Call::RawOfNone { kind, bits })
}

/// Fields of a kind that no table may have, by its code, with some calls of each.
fn any_others(code: u32, random: &mut Random) -> Vec<Case> {
    let mut fields = any_fields::fields(code, AMOUNT, random);
    fields.retain(|passed| !is_allowed(&field_of(passed)));
    let mut all = Vec::new();
    for _ in 0..OTHERS {
        let passed = random.among(&fields);
        let calls = any_fields::calls(&passed, AMOUNT, random);
        for calls in [calls.raws, calls.values] {
            let nameable: Vec<Call> = calls.into_iter().filter(is_nameable).collect();
            all.push(Case::passed(passed, random.among(&nameable)));
        }
    }
    all
}

/// Whether a line can name what is asked.
fn is_nameable(call: &Call) -> bool {
    match *call {
        Call::Scale(_) => true,
        Call::RawOf(value) => !is_odd_nan(value),
        Call::RawOfNone { kind, .. } => (1..=11).contains(&kind),
    }
}
