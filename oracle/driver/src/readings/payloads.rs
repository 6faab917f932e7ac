//! Payloads for a table: made to decode, with counters and length bytes that say what follows; and those
//! cut, stretched and damaged.
use crate::random::Random;
use model::numbers::{self, Kind};
use model::reading::FIXED_TEXT_MAX;
use model::tables::{Field, PAYLOAD_MAX, Table};

/// Bytes at which rules turn: ends of texts, lengths of texts, counters, ends of numbers.
const BYTES: [u8; 16] = [
    0x00, 0x01, 0x02, 0x03, 0x05, 0x40, 0x41, 0x7F, 0x80, 0xDE, 0xDF, 0xE0, 0xE6, 0xE7, 0xFE, 0xFF,
];

/// A payload of up to 223 bytes that says of itself what the table asks for.
pub fn made(table: &Table, random: &mut Random) -> Vec<u8> {
    let mut maker = Maker {
        table,
        bits: Vec::new(),
        raws: vec![0; table.fields.len()],
    };
    for i in 0..table.fields.len() {
        match table.sets.iter().position(|set| set.start == i) {
            Some(set) => maker.put_set(set, random),
            None if table.in_a_set(i) => {}
            None => maker.put_field(i, random),
        }
    }
    let mut payload = maker.bytes(random);
    if random.up_to(7) == 0 {
        payload.extend(any_bytes(1 + random.up_to(2), random));
    }
    payload.truncate(PAYLOAD_MAX);
    payload
}

struct Maker<'a> {
    table: &'a Table,
    bits: Vec<bool>,
    /// The raws of the fields that may be counters.
    raws: Vec<u64>,
}

impl Maker<'_> {
    fn put(&mut self, number: u64, width: u32) {
        self.bits.extend((0..width).map(|k| number >> k & 1 == 1));
    }

    fn put_bytes(&mut self, bytes: &[u8]) {
        for &byte in bytes {
            self.put(byte.into(), 8);
        }
    }

    fn is_full(&self) -> bool {
        self.bits.len() > 8 * PAYLOAD_MAX
    }

    /// As many elements as the counter says, sometimes one more or one less.
    fn put_set(&mut self, number: usize, random: &mut Random) {
        let set = &self.table.sets[number];
        let width = self.table.fields[set.counter].width.unwrap_or(0);
        let declared = numbers::elements(width, self.raws[set.counter]) as usize;
        let count = match random.up_to(5) {
            0 => declared.saturating_sub(1),
            1 => declared + 1,
            _ => declared,
        };
        // A counter of many bits says far more than there is room for.
        for _ in 0..count.min(8 * PAYLOAD_MAX) {
            for field in set.range() {
                self.put_field(field, random);
            }
        }
    }

    /// A length byte and a text, mostly with its zero.
    fn put_lz(&mut self, length: usize, random: &mut Random) {
        self.put(length as u64, 8);
        self.put_bytes(&any_bytes(length, random));
        match random.up_to(3) {
            0 => {}
            1 => self.put(random.next() | 1, 8),
            _ => self.put(0, 8),
        }
    }

    fn put_lau(&mut self, text: usize, random: &mut Random) {
        match (text, random.up_to(2)) {
            (0, 0) => self.put(0, 8),
            (0, 1) => self.put(1, 8),
            (text, _) => {
                self.put(text as u64 + 2, 8);
                self.put(random.next(), 8);
                self.put_bytes(&any_bytes(text, random));
            }
        }
    }

    fn put_field(&mut self, i: usize, random: &mut Random) {
        if self.is_full() {
            return;
        }
        let field = &self.table.fields[i];
        let is_aligned = self.bits.len().is_multiple_of(8);
        match (field.kind, field.width) {
            (Kind::StringLz, _) => self.put_lz(any_length(is_aligned, random), random),
            (Kind::StringLau, _) => self.put_lau(any_length(is_aligned, random), random),
            (Kind::StringFix, Some(width)) => {
                let size = width as usize / 8;
                let is_last = i + 1 == self.table.fields.len();
                let size = match is_last && size > FIXED_TEXT_MAX {
                    true => random.up_to(size),
                    false => size,
                };
                self.put_bytes(&any_bytes(size, random));
            }
            (_, Some(width)) if width > 64 => {
                self.put_bytes(&any_bytes(width as usize / 8, random))
            }
            (_, width) => {
                let raw = match self.table.sets.iter().any(|set| set.counter == i) {
                    true => any_count(self.table, i, 10, random),
                    false => any_raw(field, random),
                };
                self.raws[i] = raw;
                self.put(raw, width.unwrap_or(0));
            }
        }
    }

    /// The bits as bytes, the last filled up with ones or with anything.
    fn bytes(mut self, random: &mut Random) -> Vec<u8> {
        let any = random.next();
        let filler = random.among(&[u64::MAX, any]);
        let rest = self.bits.len().next_multiple_of(8) - self.bits.len();
        self.put(filler, rest as u32);
        let byte = |bits: &[bool]| (0..8).map(|k| u8::from(bits[k]) << k).sum();
        self.bits.chunks_exact(8).map(byte).collect()
    }
}

/// The length of a text. One that is not aligned is mostly empty, or it would be refused.
fn any_length(is_aligned: bool, random: &mut Random) -> usize {
    match (is_aligned, random.up_to(3)) {
        (false, 1..) | (true, 0) => 0,
        _ => 1 + random.up_to(5),
    }
}

/// Bytes of a text, of which the first often ends it.
pub fn any_bytes(length: usize, random: &mut Random) -> Vec<u8> {
    let mut bytes = random.bytes(length);
    if let Some(first) = bytes.first_mut()
        && random.up_to(2) == 0
    {
        *first = random.among(&BYTES);
    }
    bytes
}

/// A raw, often at an end of its field or a number that says nothing.
fn any_raw(field: &Field, random: &mut Random) -> u64 {
    let width = field.width.unwrap_or(0);
    let ones = u64::MAX.checked_shr(64 - width.min(64)).unwrap_or(0);
    let any = random.next();
    match (field.kind, random.up_to(7)) {
        (Kind::Float, 0) => any | 0x7F80_0000,
        (_, 0) => ones,
        (_, 1) => ones >> 1,
        (_, 2) => 0,
        (_, 3) => random.up_to(5) as u64,
        _ => any & ones,
    }
}

/// A counter's raw: few elements, as many as there may be, one more, all ones, or any, each of these one in so
/// many.
pub fn any_count(table: &Table, counter: usize, one_in: usize, random: &mut Random) -> u64 {
    let width = table.fields[counter].width.unwrap_or(64);
    let ones = u64::MAX >> (64 - width.min(64));
    let mut sets = table.sets.iter().filter(|set| set.counter == counter);
    let maximum = sets.next().map_or(0, |set| set.maximum as u64);
    let raw = match random.up_to(one_in - 1) {
        0 => ones,
        1 => random.next(),
        2 => maximum,
        3 => maximum + 1,
        _ => random.up_to(4) as u64,
    };
    raw & ones
}

/// A payload with one to three bytes changed.
pub fn damaged(payload: &[u8], random: &mut Random) -> Vec<u8> {
    let mut payload = payload.to_vec();
    if payload.is_empty() {
        return payload;
    }
    for _ in 0..=random.up_to(2) {
        let at = random.up_to(payload.len() - 1);
        payload[at] = match random.up_to(2) {
            0 => payload[at] ^ 1 << random.up_to(7),
            1 => random.next() as u8,
            _ => random.among(&BYTES),
        };
    }
    payload
}

/// A payload cut or stretched to a length.
pub fn sized(payload: &[u8], length: usize, random: &mut Random) -> Vec<u8> {
    let mut payload = payload.to_vec();
    let missing = length.saturating_sub(payload.len());
    payload.extend(random.bytes(missing));
    payload.truncate(length);
    payload
}
