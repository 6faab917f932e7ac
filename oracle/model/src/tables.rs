//! Document 01's "Table rules": a table of fields and repeating sets, how it stands in words, and the
//! rules a to h, a function for each.
use crate::numbers::{Kind, Mark, RESOLUTION_MAX, RESOLUTION_MIN, Scale, is_plain, scale_of};
use std::ops::Range;

/// A field of any kind. `numbers` has fields that hold numbers only, which always have a width.
#[derive(Clone, Copy, Debug, PartialEq)]
pub struct Field {
    pub kind: Kind,
    pub width: Option<u32>,
    pub signed: bool,
    pub scale: Option<Scale>,
}

/// `size` fields from `start` on, as often as the field `counter` says, at most `maximum` times.
#[derive(Clone, Copy, Debug, PartialEq, Eq)]
pub struct Set {
    pub start: usize,
    pub size: usize,
    pub counter: usize,
    pub maximum: usize,
}

#[derive(Clone, Debug, PartialEq)]
pub struct Table {
    pub fields: Vec<Field>,
    pub sets: Vec<Set>,
    pub length: Option<usize>,
    pub minimum: Option<usize>,
}

/// The letter of a broken rule, and the field or the set that breaks it, 0 for a.
pub type Broken = (char, usize);

/// The limits of rules a, c, g and h.
pub const FIELDS_MAX: usize = 64;
pub const SETS_MAX: usize = 4;
pub const PAYLOAD_MAX: usize = 223;
pub const WIDTH_MAX: u32 = 64;
pub const BYTES_WIDTH_MAX: u32 = 1784;
pub const ELEMENTS_MAX: usize = 255;
pub const COUNTER_WIDTH_MAX: u32 = 32;

/// The kinds in the order of their codes in a word.
pub const KINDS: [Kind; 19] = [
    Kind::Number,
    Kind::Float,
    Kind::Lookup,
    Kind::IndirectLookup,
    Kind::BitLookup,
    Kind::Pgn,
    Kind::Date,
    Kind::Time,
    Kind::Duration,
    Kind::Mmsi,
    Kind::Decimal,
    Kind::StringFix,
    Kind::StringLz,
    Kind::StringLau,
    Kind::Binary,
    Kind::Reserved,
    Kind::Spare,
    Kind::IsoName,
    Kind::Unimplemented,
];

/// A rule: its letter, and the lowest field or set that breaks it.
type Rule = (char, fn(&Table) -> Option<usize>);

const RULES: [Rule; 8] = [
    ('a', rule_a),
    ('b', rule_b),
    ('c', rule_c),
    ('d', rule_d),
    ('e', rule_e),
    ('f', rule_f),
    ('g', rule_g),
    ('h', rule_h),
];

/// "Checked a to h, lowest index first": the letter counts before the index.
pub fn check(table: &Table) -> Result<(), Broken> {
    for (letter, broken_at) in RULES {
        if let Some(index) = broken_at(table) {
            return Err((letter, index));
        }
    }
    Ok(())
}

/// The table that words are: a head, a word for each field, a word for each set. A missing word is 0,
/// and words that are left over say nothing.
pub fn read(words: &[u64]) -> Table {
    let word = |i: usize| words.get(i).copied().unwrap_or(0);
    let [fields, sets, length, minimum] = quarters(word(0));
    let given = |number: usize| (number > 0).then_some(number);
    Table {
        fields: (0..fields).map(|i| read_field(word(1 + i))).collect(),
        sets: (0..sets).map(|k| read_set(word(1 + fields + k))).collect(),
        length: given(length),
        minimum: given(minimum),
    }
}

/// The four 16-bit numbers of a word, lowest first.
fn quarters(word: u64) -> [usize; 4] {
    [0, 16, 32, 48].map(|at| (word >> at & 0xFFFF) as usize)
}

fn read_field(word: u64) -> Field {
    let code = (word & 0xFF) as usize;
    let width = (word >> 8 & 0xFFFF) as u32;
    Field {
        kind: kind_of(code),
        width: (width > 0).then_some(width),
        signed: word >> 24 & 1 == 1,
        scale: scale_of((word >> 25 & 3) as u32, (word >> 32) as u32),
    }
}

/// A kind by its code. A code that is no kind's is as one that is not there.
pub fn kind_of(code: usize) -> Kind {
    KINDS.get(code).copied().unwrap_or(Kind::Unimplemented)
}

fn read_set(word: u64) -> Set {
    let [start, size, counter, maximum] = quarters(word);
    Set {
        start,
        size,
        counter,
        maximum,
    }
}

impl Set {
    /// The fields that it repeats.
    pub fn range(&self) -> Range<usize> {
        self.start..self.start + self.size
    }

    fn overlaps(&self, other: &Set) -> bool {
        let (one, two) = (self.range(), other.range());
        one.start.max(two.start) < one.end.min(two.end)
    }
}

impl Table {
    pub fn in_a_set(&self, field: usize) -> bool {
        self.sets.iter().any(|set| set.range().contains(&field))
    }

    fn first_field(&self, breaks: impl Fn(&Field) -> bool) -> Option<usize> {
        self.fields.iter().position(breaks)
    }
}

/// "1 to 64 fields, at most 4 repeating sets; length and minimum length, if given, 1 to 223, minimum
/// not above length."
fn rule_a(table: &Table) -> Option<usize> {
    let counts = (1..=FIELDS_MAX).contains(&table.fields.len()) && table.sets.len() <= SETS_MAX;
    let fits = |given: Option<usize>| given.is_none_or(|bytes| (1..=PAYLOAD_MAX).contains(&bytes));
    let ordered = match (table.minimum, table.length) {
        (Some(minimum), Some(length)) => minimum <= length,
        _ => true,
    };
    let kept = counts && fits(table.length) && fits(table.minimum) && ordered;
    (!kept).then_some(0)
}

/// "Kinds: BitLookup, Number, Lookup, IndirectLookup, Pgn, IsoName, Float, Reserved, Spare, StringFix,
/// StringLz, StringLau, Binary, Date, Mmsi, Duration, Time."
fn rule_b(table: &Table) -> Option<usize> {
    table.first_field(|field| matches!(field.kind, Kind::Decimal | Kind::Unimplemented))
}

/// "Width 1 to 64; Float 32; StringFix a multiple of 8 from 8 to 1,784; Binary such a multiple, or a
/// non-multiple up to 63; StringLz and StringLau none."
fn rule_c(table: &Table) -> Option<usize> {
    table.first_field(|field| !width_fits(field))
}

fn width_fits(field: &Field) -> bool {
    let Some(width) = field.width else {
        return matches!(field.kind, Kind::StringLz | Kind::StringLau);
    };
    let whole_bytes = width.is_multiple_of(8) && (8..=BYTES_WIDTH_MAX).contains(&width);
    match field.kind {
        Kind::Float => width == 32,
        Kind::StringFix => whole_bytes,
        Kind::Binary => whole_bytes || (!width.is_multiple_of(8) && width <= 63),
        Kind::StringLz | Kind::StringLau => false,
        _ => (1..=WIDTH_MAX).contains(&width),
    }
}

/// "A resolution only on Number, Lookup, IndirectLookup, Pgn, IsoName, Date, Mmsi, Duration, Time; an
/// f32 from 2^-64 to 2^20. With it a mark, single or double." A NaN is in no range.
fn rule_d(table: &Table) -> Option<usize> {
    let breaks = |field: &Field, scale: Scale| {
        let in_range = (RESOLUTION_MIN..=RESOLUTION_MAX).contains(&scale.resolution);
        scale.mark == Mark::Broken || !takes_resolution(field.kind) || !in_range
    };
    table.first_field(|field| field.scale.is_some_and(|scale| breaks(field, scale)))
}

pub fn takes_resolution(kind: Kind) -> bool {
    is_plain(kind) || matches!(kind, Kind::Date | Kind::Mmsi | Kind::Duration | Kind::Time)
}

/// "Signed only on the first five of d, and on Duration with resolution. Date and Mmsi without
/// resolution: 16 or 32 bits."
fn rule_e(table: &Table) -> Option<usize> {
    table.first_field(|field| {
        let wrong_sign = field.signed && !takes_sign(field);
        let bare = matches!(field.kind, Kind::Date | Kind::Mmsi) && field.scale.is_none();
        wrong_sign || (bare && field.width != Some(16) && field.width != Some(32))
    })
}

pub fn takes_sign(field: &Field) -> bool {
    is_plain(field.kind) || (field.kind == Kind::Duration && field.scale.is_some())
}

/// "StringLz only as the last field, outside a set." The sets may be nonsense here: g comes later.
fn rule_f(table: &Table) -> Option<usize> {
    let last = table.fields.len() - 1;
    (0..=last).find(|&i| table.fields[i].kind == Kind::StringLz && (i != last || table.in_a_set(i)))
}

/// "Sets ascend, do not overlap, lie in the table, hold a field with a width; size at least 1, maximum
/// 1 to 255." A set is held against those before it, so that of two the later is at fault.
fn rule_g(table: &Table) -> Option<usize> {
    (0..table.sets.len()).find(|&k| {
        let set = &table.sets[k];
        let before = &table.sets[..k];
        let ascends = before.iter().all(|other| other.start < set.start);
        let apart = !before.iter().any(|other| set.overlaps(other));
        let holds_width = (table.fields.get(set.range()))
            .is_some_and(|fields| fields.iter().any(|field| field.width.is_some()));
        let counts = set.size >= 1 && (1..=ELEMENTS_MAX).contains(&set.maximum);
        !(ascends && apart && holds_width && counts)
    })
}

/// "Each set has a counter that precedes it, is in no set, is Number or Lookup, unsigned, unscaled, 1
/// to 32 bits wide."
fn rule_h(table: &Table) -> Option<usize> {
    table.sets.iter().position(|set| {
        let precedes = set.counter < set.start;
        let counts = table.fields.get(set.counter).is_some_and(is_counter);
        !(precedes && counts && !table.in_a_set(set.counter))
    })
}

fn is_counter(field: &Field) -> bool {
    matches!(field.kind, Kind::Number | Kind::Lookup)
        && !field.signed
        && field.scale.is_none()
        && (field.width).is_some_and(|width| (1..=COUNTER_WIDTH_MAX).contains(&width))
}
