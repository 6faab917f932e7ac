//! The values that are asked of each field: the ends of every kind of value, odd floats, and those around
//! the field's own limits.
use super::cases::{Amount, float_bits, inputs};
use super::value_kinds::{VALUE_KINDS, whole};
use crate::random::Random;
use model::numbers::{Field, Kind, Scale, Value, ValueKind, limits, meant, value};

pub fn values(field: &Field, amount: Amount, random: &mut Random) -> Vec<Value> {
    let mut all = whole_ends();
    all.extend(odd_floats());
    match (field.kind, field.scale) {
        (Kind::Float, _) => all.extend(float_bits(amount, random).map(|bits| Value {
            kind: ValueKind::F32,
            bits: bits.into(),
        })),
        (_, Some(scale)) => all.extend(scaled_values(field, scale, amount, random)),
        (_, None) => all.extend(whole_values(field, amount, random)),
    }
    all
}

/// The integer kinds, with their widths and signs.
fn whole_kinds() -> impl Iterator<Item = (ValueKind, u32, bool)> {
    let kinds = VALUE_KINDS.into_iter();
    kinds.filter_map(|kind| whole(kind).map(|(width, signed)| (kind, width, signed)))
}

/// The integers of every kind at their ends and around 0, and no bytes.
fn whole_ends() -> Vec<Value> {
    let mut all = vec![Value {
        kind: ValueKind::Bytes,
        bits: 0,
    }];
    for (kind, width, signed) in whole_kinds() {
        let (smallest, largest) = limits(width, signed);
        for number in [smallest, smallest + 1, 0, 1, largest - 1, largest] {
            all.push(Value::whole(kind, number));
        }
    }
    all
}

/// Floats that are odd in themselves, as f64 and as f32.
fn odd_floats() -> Vec<Value> {
    let far = (1u128 << 127) as f64;
    let doubles = [
        0.0,
        0.5,
        0.499_999_999_999_999_94,
        1.0,
        f64::from_bits(1),
        f64::MIN_POSITIVE,
        f64::MAX,
        f64::INFINITY,
        (1u64 << 63) as f64,
        far,
        far * 1.5,
        far * far,
    ];
    let mut all = vec![Value::double(f64::NAN), Value::single(f32::NAN)];
    for double in doubles {
        for double in [double, -double] {
            all.push(Value::double(double));
            all.push(Value::single(double as f32));
        }
    }
    all.push(Value::single(f32::from_bits(1)));
    all.push(Value::single(f32::MAX));
    all
}

/// Integers of every kind around the field's limits and at random.
fn whole_values(field: &Field, amount: Amount, random: &mut Random) -> Vec<Value> {
    let (smallest, largest) = limits(field.width, field.signed);
    let mut numbers: Vec<i128> = Vec::new();
    for limit in [smallest, 0, largest] {
        numbers.extend([limit - 2, limit - 1, limit, limit + 1, limit + 2]);
    }
    for _ in 0..inputs(field, amount) {
        numbers.push(i128::from(random.of_any_length()));
        numbers.push(-i128::from(random.of_any_length()));
    }
    let mut all = Vec::new();
    for number in numbers {
        for (kind, width, signed) in whole_kinds() {
            let (low, high) = limits(width, signed);
            if (low..=high).contains(&number) {
                all.push(Value::whole(kind, number));
            }
        }
    }
    all
}

/// Values around those of the field's limits, and those of random raws.
fn scaled_values(field: &Field, scale: Scale, amount: Amount, random: &mut Random) -> Vec<Value> {
    let resolution = f64::from(scale.resolution);
    let mut all = Vec::new();
    for quotient in quotients(field, amount, random) {
        all.extend(around(quotient * resolution));
    }
    for _ in 0..amount.inputs {
        let raw = random.next() >> (64 - field.width);
        all.push(value(field, raw));
        let near = meant(raw, field.width, field.signed) as f64 + 0.5;
        all.extend(around(near * resolution));
    }
    all
}

/// Quotients at which the answer turns: each limit and the halves beside it, above 53 bits also the
/// spacing beyond, and -2^127.
fn quotients(field: &Field, amount: Amount, random: &mut Random) -> Vec<f64> {
    let (smallest, largest) = limits(field.width, field.signed);
    let mut all = vec![-((1u128 << 127) as f64)];
    for limit in [smallest, 0, largest] {
        let limit = limit as f64;
        all.extend([limit - 1.0, limit - 0.5, limit, limit + 0.5, limit + 1.0]);
    }
    if field.width > 53 {
        let spacing = (1u64 << (field.width - 53)) as f64;
        for steps in [0.5, 1.0, 1.5, 2.0, 3.0] {
            all.push(smallest as f64 - steps * spacing);
            all.push(largest as f64 + steps * spacing);
        }
        // A whole number beyond the spacing that an f64 holds only for an unsigned field.
        all.extend([
            smallest as f64 - spacing - 1.0,
            smallest as f64 - spacing - 0.5,
        ]);
    }
    for _ in 0..amount.inputs {
        all.push(random.of_any_length() as f64 * 1.1);
    }
    all
}

/// A float and its neighbours, as f64 and as f32, and the integer there.
fn around(middle: f64) -> Vec<Value> {
    let single = middle as f32;
    let mut all = vec![Value::double(middle), Value::single(single)];
    all.extend([middle.next_down(), middle.next_up()].map(Value::double));
    all.extend([single.next_down(), single.next_up()].map(Value::single));
    let whole = i128::from(middle as i64);
    all.push(Value::whole(ValueKind::I64, whole));
    all
}
