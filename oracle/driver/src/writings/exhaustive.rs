//! Small tables whose values are gone through one by one.
use super::case::Case;
use super::cases::LONGEST;
use super::kinds::is_bytes;
use super::records::records;
use crate::payload::described::number_field;
use crate::payload::exhaustive::{after, every_counter, every_kind};
use crate::tables::built_in::{
    bare, double, field, number, set, signed, single, table, table_129026,
};
use crate::tables::words::pack;
use model::numbers::{self, Kind, Value, ValueKind, limits};
use model::tables::{self, Field, PAYLOAD_MAX, Table};
use model::writing::Given;

/// What is done with the cases of a table.
type Each<'a> = &'a mut dyn FnMut(Vec<Case>);

/// Every set of cases, with counters of up to so many bits.
pub fn all(counter_bits: u32, each: Each) {
    every_kind(|table, field, before| each(of_kind(table, field, before)));
    scaled(each);
    texts(each);
    sizes(each);
    every_counter(counter_bits, |table, widths, raw| {
        each(counted(table, widths, raw));
    });
}

/// A lent text that is longer than any text may be.
const TEXT: usize = 300;

fn lent() -> Vec<u8> {
    (0..TEXT).map(|i| i as u8).collect()
}

fn bytes(length: u64, encoding: Option<u8>) -> Given {
    Given::Bytes {
        place: 0,
        length,
        encoding,
    }
}

fn whole(kind: ValueKind, bits: u64) -> Given {
    Given::Number(Value { kind, bits })
}

fn byte(bits: u64) -> Given {
    whole(ValueKind::U8, bits)
}

fn case(words: &[u64], size: usize, values: &[Given]) -> Case {
    Case {
        size,
        words: words.to_vec(),
        values: records(values),
        text: lent(),
    }
}

/// A value behind a number of so many bits, 1 if there is one.
fn after_one(width: u32, value: Given) -> Vec<Given> {
    match width {
        0 => vec![value],
        _ => vec![byte(1), value],
    }
}

/// Buffers of just so many bytes, one less and one more.
fn around(bytes: usize) -> [usize; 3] {
    [bytes.saturating_sub(1), bytes, bytes + 1].map(|size| size.min(PAYLOAD_MAX))
}

/// Values at the field's ends and just beyond, of other kinds and lengths.
fn of_kind(table: &Table, field: &Field, before: u32) -> Vec<Case> {
    let words = pack(table);
    let width = field.width.unwrap_or(0);
    let needed = (before + width).div_ceil(8) as usize;
    let mut all = Vec::new();
    for value in values_of(field) {
        let values = after_one(before, value);
        all.extend(around(needed).map(|size| case(&words, size, &values)));
    }
    all.push(case(&words, PAYLOAD_MAX, &after_one(before, byte(1))[1..]));
    all
}

/// The kinds that take a resolution at every width, signed and not: values at the field's ends, half a unit
/// and a unit beyond them, far out, and of other kinds.
fn scaled(each: Each) {
    for kind in tables::KINDS {
        for width in 1..=64 {
            for plain in [field(kind, width), signed(field(kind, width))] {
                for described in [double(plain, 1.0), single(plain, 0.01)] {
                    let table = table(&[described], &[]);
                    if tables::check(&table).is_ok() {
                        each(of_scaled(&table, &described));
                    }
                }
            }
        }
    }
}

fn of_scaled(table: &Table, field: &Field) -> Vec<Case> {
    let words = pack(table);
    let field = number_field(field);
    let (smallest, largest) = limits(field.width, field.signed);
    let (low, high) = (smallest as f64, largest as f64);
    let far = -((1u128 << 127) as f64);
    let quotients = [low, high, low - 0.5, high + 0.5, low - 1.0, high + 1.0, far];
    let resolution = field.scale.map_or(1.0, |scale| scale.resolution);
    let product = |quotient: f64| Value::double(quotient * f64::from(resolution));
    let mut values: Vec<Value> = quotients.map(product).into();
    values.push(numbers::value(&field, 1));
    values.push(Value::whole(ValueKind::I8, -1));
    values.push(Value::whole(ValueKind::U8, 1));
    let size = field.width.div_ceil(8) as usize;
    let cases = values.into_iter();
    let mut all: Vec<Case> = cases
        .map(|value| case(&words, size, &[Given::Number(value)]))
        .collect();
    all.push(case(&words, size - 1, &[Given::Number(product(0.0))]));
    all
}

/// Values at the ends of a field. A skipped one takes none, so that any is left over.
fn values_of(field: &Field) -> Vec<Given> {
    let size = u64::from(field.width.unwrap_or(0)) / 8;
    if is_bytes(field) {
        let lengths = [0, size - 1, size, size + 1];
        let texts = lengths.into_iter().map(|length| bytes(length, None));
        return texts.chain([bytes(size, Some(1)), byte(0)]).collect();
    }
    let field = number_field(field);
    let (smallest, largest) = limits(field.width, field.signed);
    let kind = if field.signed {
        ValueKind::I64
    } else {
        ValueKind::U64
    };
    let ends = [smallest, largest, smallest - 1, largest + 1];
    let mut all: Vec<Given> = ends.map(|number| whole(kind, number as u64)).into();
    all.push(Given::Number(Value::single(f32::NAN)));
    all.push(Given::Number(numbers::value(&field, 1)));
    all.push(bytes(0, None));
    all
}

/// Every length of both texts, with an encoding byte and without one, aligned and not.
fn texts(each: Each) {
    for kind in [Kind::StringLz, Kind::StringLau] {
        for before in [0, 4, 8] {
            let words = pack(&table(&after(before, bare(kind)), &[]));
            for length in 0..=240u64 {
                let needed = before.div_ceil(8) as usize + 2 + length as usize;
                let mut all = Vec::new();
                for encoding in [None, Some(0), Some(1)] {
                    let values = after_one(before, bytes(length, encoding));
                    all.extend(around(needed).map(|size| case(&words, size, &values)));
                }
                each(all);
            }
        }
    }
}

/// As many elements as the counter says, one less and one more.
fn counted(table: &Table, [counter, width]: [u32; 2], raw: u64) -> Vec<Case> {
    let words = pack(table);
    let elements = numbers::elements(counter, raw) as usize;
    let mut values = vec![whole(ValueKind::U16, raw)];
    values.extend((0..=elements).map(|i| byte(i as u64 & 1)));
    let needed = (counter as usize + elements * width as usize).div_ceil(8);
    let size = needed.min(PAYLOAD_MAX);
    [elements, elements + 1, elements + 2]
        .map(|count| case(&words, size, &values[..count]))
        .into()
}

/// Buffers of every size, too long ones too, for tables that end in each kind of text, in a number, in a
/// skipped field and in a set.
fn sizes(each: Each) {
    let text = bytes(5, None);
    let full = bytes(PAYLOAD_MAX as u64, None);
    let speed = Given::Number(Value::single(3.5));
    let elements: Vec<Given> = [byte(200)].into_iter().chain(vec![byte(7); 200]).collect();
    let tables: [(Table, Vec<Given>); 9] = [
        (table(&[number(8)], &[]), vec![byte(1)]),
        (
            table(&[number(9), field(Kind::Reserved, 64)], &[]),
            vec![byte(1)],
        ),
        (
            table(&[number(3), field(Kind::Spare, 7)], &[]),
            vec![byte(1)],
        ),
        (
            table(&[number(8), bare(Kind::StringLz)], &[]),
            vec![byte(1), text],
        ),
        (
            table(&[bare(Kind::StringLau), single(number(16), 0.01)], &[]),
            vec![bytes(220, Some(1)), speed],
        ),
        (table(&[field(Kind::StringFix, 1784)], &[]), vec![text]),
        (table(&[field(Kind::Binary, 1784)], &[]), vec![full]),
        (table_129026(), vec![byte(0x2A), byte(0), speed, speed]),
        (
            table(&[number(8), number(8)], &[set(1, 1, 0, 255)]),
            elements,
        ),
    ];
    for (table, values) in tables {
        let words = pack(&table);
        let cases = (0..=LONGEST).map(|size| case(&words, size, &values));
        each(cases.collect());
    }
}
