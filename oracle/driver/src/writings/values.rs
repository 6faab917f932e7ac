//! Values for a field that holds a number: right ones, those out of its range, and those of another kind.
use crate::numbers::value_kinds::{VALUE_KINDS, whole};
use crate::random::Random;
use model::numbers::{self, Field, Kind, Scale, Value, ValueKind, limits, meant};

/// A value that the field takes, or nearly always does: a scaled one is rounded.
pub fn any_right(field: &Field, random: &mut Random) -> Value {
    let raw = any_raw(field, random);
    let number = meant(raw, field.width, field.signed);
    match (field.kind, field.scale) {
        (Kind::Float, _) => any_single(random),
        (_, None) => any_whole(number, field.signed, random),
        (_, Some(scale)) => scaled(field, raw, number, scale, random),
    }
}

/// A raw, often at an end of its field or a number that says nothing.
fn any_raw(field: &Field, random: &mut Random) -> u64 {
    let ones = u64::MAX >> (64 - field.width);
    let any = random.next();
    let raw = match random.up_to(7) {
        0 => ones,
        1 => ones >> 1,
        2 => 0,
        3 => (ones >> 1) + 1,
        4 => random.up_to(5) as u64,
        _ => any,
    };
    raw & ones
}

/// The bits of an f32: any, or a NaN of any bits, or a number at an end.
fn any_single(random: &mut Random) -> Value {
    let any = random.next() as u32;
    let ends = [
        0,
        1 << 31,
        0x7F80_0000,
        0xFF80_0000,
        0x7FC0_0000,
        0x7F7F_FFFF,
    ];
    let bits = match random.up_to(3) {
        0 => random.among(&ends),
        1 => any | 0x7F80_0000,
        _ => any,
    };
    Value {
        kind: ValueKind::F32,
        bits: bits.into(),
    }
}

/// A whole number as one of the kinds of that sign that hold it.
fn any_whole(number: i128, signed: bool, random: &mut Random) -> Value {
    let kinds: Vec<ValueKind> = (VALUE_KINDS.into_iter())
        .filter(|&kind| holds(kind, number) == Some(signed))
        .collect();
    Value::whole(random.among(&kinds), number)
}

/// The sign of an integer kind that holds a number.
fn holds(kind: ValueKind, number: i128) -> Option<bool> {
    let (width, signed) = whole(kind)?;
    let (smallest, largest) = limits(width, signed);
    (smallest..=largest).contains(&number).then_some(signed)
}

/// The value that is read from a raw, the product in f64 or f32, or a whole number near it.
fn scaled(field: &Field, raw: u64, number: i128, scale: Scale, random: &mut Random) -> Value {
    let product = number as f64 * f64::from(scale.resolution);
    match random.up_to(4) {
        0 | 1 => numbers::value(field, raw),
        2 => Value::single(product as f32),
        3 if product.abs() < (1u64 << 63) as f64 => any_whole(product as i128, true, random),
        _ => Value::double(product),
    }
}

/// A value just out of the field's range or far out, none if there is no such value of a kind that it
/// takes.
pub fn any_beyond(field: &Field, random: &mut Random) -> Option<Value> {
    let (smallest, largest) = limits(field.width, field.signed);
    match (field.kind, field.scale) {
        (Kind::Float, _) => None,
        (_, None) => {
            let far = largest + 1 + i128::from(random.of_any_length());
            let number = random.among(&[smallest - 1, largest + 1, largest + 1, far]);
            let (low, high) = limits(64, field.signed);
            let fits = (low..=high).contains(&number);
            fits.then(|| any_whole(number, field.signed, random))
        }
        (_, Some(scale)) => {
            let steps = random.among(&[0.5, 0.75, 1.0, 2.0, 4096.0]);
            let far = -((1u128 << 127) as f64);
            let (below, above) = (smallest as f64 - steps, largest as f64 + steps);
            let limit = random.among(&[below, above, below, above, far]);
            let number = limit * f64::from(scale.resolution);
            let odd = [
                f64::NAN,
                f64::INFINITY,
                f64::NEG_INFINITY,
                f64::MAX,
                f64::MIN,
            ];
            let odd = random.among(&odd);
            Some(match random.up_to(4) {
                0 => Value::double(odd),
                1 => Value::single(odd as f32),
                2 => Value::single(number as f32),
                _ => Value::double(number),
            })
        }
    }
}

/// A number of any kind.
pub fn any_number(random: &mut Random) -> Value {
    let any = random.next();
    let size = random.of_any_length();
    match random.among(&VALUE_KINDS) {
        ValueKind::Bytes | ValueKind::F32 => any_single(random),
        ValueKind::F64 => Value::double(f64::from_bits(any)),
        kind => {
            let (width, signed) = whole(kind).expect("the other kinds are integers");
            let raw = random.among(&[any, size, 1]) & u64::MAX >> (64 - width);
            Value::whole(kind, meant(raw, width, signed))
        }
    }
}
