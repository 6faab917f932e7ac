//! Values for a whole table, in walk order, that say what the table asks for, and the text that is lent with
//! them.
use super::kinds::takes_value;
use super::values::any_right;
use crate::payload::described::number_field;
use crate::random::Random;
use crate::readings::payloads::{any_bytes, any_count};
use model::numbers::{self, Kind, Value, ValueKind};
use model::tables::{PAYLOAD_MAX, Table};
use model::writing::Given;

#[derive(Clone)]
pub struct Made {
    pub values: Vec<Given>,
    pub text: Vec<u8>,
    /// The field of each value.
    pub fields: Vec<usize>,
    /// The bytes that it takes, if nothing is refused.
    pub needed: usize,
}

/// Values for every field up to the longest payload, and for one more.
pub fn made(table: &Table, random: &mut Random) -> Made {
    let mut maker = Maker {
        table,
        made: Made {
            values: Vec::new(),
            text: Vec::new(),
            fields: Vec::new(),
            needed: 0,
        },
        cursor: 0,
        raws: vec![0; table.fields.len()],
    };
    for i in 0..table.fields.len() {
        match table.sets.iter().position(|set| set.start == i) {
            Some(set) => maker.add_set(set, random),
            None if table.in_a_set(i) => {}
            None => maker.add(i, random),
        }
    }
    if random.up_to(3) == 0 {
        let more = random.up_to(5);
        maker.made.text.extend(random.bytes(more));
    }
    maker.made.needed = maker.cursor.div_ceil(8);
    maker.made
}

struct Maker<'a> {
    table: &'a Table,
    made: Made,
    /// In bits.
    cursor: usize,
    /// The raws of the fields that may be counters.
    raws: Vec<u64>,
}

impl Maker<'_> {
    fn is_full(&self) -> bool {
        self.cursor > 8 * PAYLOAD_MAX
    }

    fn add_set(&mut self, number: usize, random: &mut Random) {
        let set = &self.table.sets[number];
        let width = self.table.fields[set.counter].width.unwrap_or(0);
        let count = numbers::elements(width, self.raws[set.counter]);
        // A set over its maximum is refused where it starts; some elements are given all the same.
        for _ in 0..count.min(set.maximum as u64 + 1) {
            for field in set.range() {
                self.add(field, random);
            }
        }
    }

    fn add(&mut self, i: usize, random: &mut Random) {
        if self.is_full() {
            return;
        }
        let field = &self.table.fields[i];
        let width = field.width.unwrap_or(0) as usize;
        if takes_value(field) {
            let is_counter = self.table.sets.iter().any(|set| set.counter == i);
            let (value, bits) = match (field.kind, is_counter) {
                (_, true) => (self.counter(i, random), width),
                (Kind::StringLz | Kind::StringLau, _) => self.text(field.kind, random),
                (Kind::StringFix, _) => {
                    let length = random.up_to(width / 8);
                    let length = random.among(&[length, length, width / 8, 0]);
                    (self.bytes(length, None, random), width)
                }
                (Kind::Binary, _) if width.is_multiple_of(8) => {
                    (self.bytes(width / 8, None, random), width)
                }
                _ => (
                    Given::Number(any_right(&number_field(field), random)),
                    width,
                ),
            };
            self.made.values.push(value);
            self.made.fields.push(i);
            self.cursor += bits;
        } else {
            self.cursor += width;
        }
    }

    /// A counter: few elements, as many as there may be, one more, all ones, or any.
    fn counter(&mut self, i: usize, random: &mut Random) -> Given {
        let field = &self.table.fields[i];
        let raw = any_counter(self.table, i, random);
        self.raws[i] = raw;
        let kinds = [
            ValueKind::U8,
            ValueKind::U16,
            ValueKind::U32,
            ValueKind::U64,
        ];
        let least = match field.width {
            Some(..=8) => 0,
            Some(..=16) => 1,
            _ => 2,
        };
        Given::Number(Value {
            kind: random.among(&kinds[least..]),
            bits: raw,
        })
    }

    /// A text and its bits. One that is not aligned is mostly empty, or it would be refused.
    fn text(&mut self, kind: Kind, random: &mut Random) -> (Given, usize) {
        let is_aligned = self.cursor.is_multiple_of(8);
        let length = match (is_aligned, random.up_to(7)) {
            (false, 1..) | (true, 0 | 1) => 0,
            (true, 2) => random.among(&[220, 221]),
            _ => 1 + random.up_to(5),
        };
        let any = random.next() as u8;
        let encoding = random.among(&[0, 1, any]);
        match (kind, length, random.up_to(1)) {
            (Kind::StringLau, 0, 0) => (self.bytes(0, None, random), 8),
            (Kind::StringLau, ..) => {
                let value = self.bytes(length, Some(encoding), random);
                (value, 16 + 8 * length)
            }
            _ => (self.bytes(length, None, random), 16 + 8 * length),
        }
    }

    /// Bytes at a place of the lent text, which grows or has them already.
    fn bytes(&mut self, length: usize, encoding: Option<u8>, random: &mut Random) -> Given {
        let text = &mut self.made.text;
        let spare = text.len().checked_sub(length);
        let place = match spare {
            Some(spare) if length == 0 || random.up_to(3) == 0 => {
                let any = random.up_to(spare);
                random.among(&[any, any, spare, 0])
            }
            _ => {
                text.extend(any_bytes(length, random));
                text.len() - length
            }
        };
        Given::Bytes {
            place: place as u64,
            length: length as u64,
            encoding,
        }
    }
}

/// A counter's raw.
pub fn any_counter(table: &Table, counter: usize, random: &mut Random) -> u64 {
    any_count(table, counter, 12, random)
}
