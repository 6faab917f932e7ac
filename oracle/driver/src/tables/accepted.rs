//! Random tables that the rules accept.
use super::built_in::{bare, field};
use crate::numbers::cases::any_resolution;
use crate::random::Random;
use model::numbers::{Kind, Mark, RESOLUTION_MAX, RESOLUTION_MIN, Scale};
use model::tables::{self, BYTES_WIDTH_MAX, COUNTER_WIDTH_MAX, ELEMENTS_MAX, Field, Set, Table};
use model::tables::{FIELDS_MAX, KINDS, PAYLOAD_MAX, SETS_MAX, WIDTH_MAX};
use std::ops::Range;

/// The kinds of rule b that may stand anywhere, with a width.
const WIDE: [Kind; 15] = [
    Kind::BitLookup,
    Kind::Number,
    Kind::Lookup,
    Kind::IndirectLookup,
    Kind::Pgn,
    Kind::IsoName,
    Kind::Float,
    Kind::Reserved,
    Kind::Spare,
    Kind::StringFix,
    Kind::Binary,
    Kind::Date,
    Kind::Mmsi,
    Kind::Duration,
    Kind::Time,
];

/// A table that the rules accept.
pub fn any_table(random: &mut Random) -> Table {
    let count = any_count(random);
    let (length, minimum) = any_lengths(random);
    let mut table = Table {
        fields: (0..count).map(|_| any_placed_field(random)).collect(),
        sets: any_sets(count, random),
        length,
        minimum,
    };
    for set in &table.sets {
        table.fields[set.counter] = any_counter(random);
        let inside = &mut table.fields[set.start..set.start + set.size];
        if inside.iter().all(|field| field.width.is_none()) {
            inside[random.up_to(set.size - 1)] = any_wide_field(random);
        }
    }
    let set_is_last = (table.sets.last()).is_some_and(|set| set.start + set.size == count);
    if !set_is_last && random.up_to(7) == 0 {
        table.fields[count - 1] = bare(Kind::StringLz);
    }
    table
}

/// Short tables and the longest are as frequent as all others.
fn any_count(random: &mut Random) -> usize {
    match random.up_to(3) {
        0 => 1 + random.up_to(7),
        1 => FIELDS_MAX - random.up_to(1),
        _ => 1 + random.up_to(FIELDS_MAX - 1),
    }
}

/// The length and the minimum, either of which may be missing.
fn any_lengths(random: &mut Random) -> (Option<usize>, Option<usize>) {
    let low = 1 + random.up_to(PAYLOAD_MAX - 1);
    let above = low + random.up_to(PAYLOAD_MAX - low);
    let high = random.among(&[low, above, PAYLOAD_MAX]);
    match random.up_to(3) {
        0 => (None, None),
        1 => (Some(high), None),
        2 => (None, Some(high)),
        _ => (Some(high), Some(low)),
    }
}

/// Ascending sets after the first field, which is left for the counters, each with a counter outside
/// all. Two of them may share a counter.
fn any_sets(count: usize, random: &mut Random) -> Vec<Set> {
    let ranges = any_ranges(count, random);
    let counter_of = |start: usize, random: &mut Random| {
        let is_free = |i: &usize| !ranges.iter().any(|range| range.contains(i));
        let free: Vec<usize> = (0..start).filter(is_free).collect();
        random.among(&free)
    };
    let set = |range: &Range<usize>| Set {
        start: range.start,
        size: range.len(),
        counter: counter_of(range.start, random),
        maximum: match random.up_to(3) {
            0 => random.among(&[1, ELEMENTS_MAX]),
            _ => 1 + random.up_to(ELEMENTS_MAX - 1),
        },
    };
    ranges.iter().map(set).collect()
}

fn any_ranges(count: usize, random: &mut Random) -> Vec<Range<usize>> {
    let sets = random.up_to(SETS_MAX);
    let mut ends: Vec<usize> = (0..2 * sets).map(|_| 1 + random.up_to(count - 1)).collect();
    if sets > 0 && random.up_to(3) == 0 {
        ends[0] = count;
    }
    ends.sort_unstable();
    let ranges = ends.chunks_exact(2).map(|pair| pair[0]..pair[1]);
    ranges.filter(|range| !range.is_empty()).collect()
}

/// A field that may stand anywhere: all but StringLz.
fn any_placed_field(random: &mut Random) -> Field {
    match random.up_to(WIDE.len()) {
        0 => bare(Kind::StringLau),
        _ => any_wide_field(random),
    }
}

/// A field that keeps the rules b to e, of any kind.
pub fn any_field(random: &mut Random) -> Field {
    match random.up_to(WIDE.len() + 1) {
        0 => bare(Kind::StringLau),
        1 => bare(Kind::StringLz),
        _ => any_wide_field(random),
    }
}

fn any_counter(random: &mut Random) -> Field {
    let kind = random.among(&[Kind::Number, Kind::Lookup]);
    field(
        kind,
        1 + random.up_to(COUNTER_WIDTH_MAX as usize - 1) as u32,
    )
}

fn any_wide_field(random: &mut Random) -> Field {
    let mut field = bare(random.among(&WIDE));
    if tables::takes_resolution(field.kind) && random.up_to(1) == 0 {
        field.scale = Some(any_scale(random));
    }
    field.width = Some(any_width(&field, random));
    field.signed = tables::takes_sign(&field) && random.up_to(1) == 0;
    field
}

fn any_scale(random: &mut Random) -> Scale {
    let any = any_resolution(random);
    Scale {
        mark: random.among(&[Mark::Single, Mark::Double]),
        resolution: random.among(&[any, any, any, RESOLUTION_MIN, RESOLUTION_MAX]),
    }
}

fn any_width(field: &Field, random: &mut Random) -> u32 {
    let bytes = 8 * (1 + random.up_to(BYTES_WIDTH_MAX as usize / 8 - 1) as u32);
    let bits = 1 + random.up_to(WIDTH_MAX as usize - 1) as u32;
    match field.kind {
        Kind::Float => 32,
        Kind::StringFix => bytes,
        Kind::Binary => random.among(&[bytes, bits]),
        Kind::Date | Kind::Mmsi if field.scale.is_none() => random.among(&[16, 32]),
        _ => bits,
    }
}

/// Which kinds were met at which widths.
pub struct Coverage(Vec<bool>);

impl Coverage {
    /// Numbers, Reserved and Spare: 12 kinds of 64 widths; Float; StringFix; StringLz and StringLau;
    /// Binary, of whole bytes and not.
    const ALL: usize = 12 * 64 + 1 + 223 + 2 + (223 + 56);

    pub fn new() -> Coverage {
        Coverage(vec![false; KINDS.len() * Self::ROW])
    }

    const ROW: usize = BYTES_WIDTH_MAX as usize + 1;

    pub fn add(&mut self, table: &Table) {
        for field in &table.fields {
            let width = field.width.unwrap_or(0) as usize;
            self.0[field.kind as usize * Self::ROW + width] = true;
        }
    }

    /// Whether the generator makes every kind at every width that the rules allow.
    pub fn outcome(&self) -> Result<String, String> {
        let met = self.0.iter().filter(|&&met| met).count();
        if met == Self::ALL {
            Ok(format!("{met} kinds and widths"))
        } else {
            Err(format!("{met} kinds and widths, not {}", Self::ALL))
        }
    }
}
