//! Random accepted tables whose payloads often decode: mostly few fields, short texts, whole bytes and
//! small sets.
use super::accepted::any_field;
use super::built_in::{bare, field};
use crate::random::Random;
use model::numbers::Kind;
use model::reading::FIXED_TEXT_MAX;
use model::tables::{self, ELEMENTS_MAX, FIELDS_MAX, Field, Set, Table};

/// A table that the rules accept. What breaks one is thrown away.
pub fn any_small_table(random: &mut Random) -> Table {
    loop {
        let table = any_made(random);
        if tables::check(&table).is_ok() {
            return table;
        }
    }
}

fn any_made(random: &mut Random) -> Table {
    let count = match random.up_to(15) {
        0..=1 => 1,
        2..=12 => 2 + random.up_to(6),
        13..=14 => 9 + random.up_to(20),
        _ => FIELDS_MAX - random.up_to(1),
    };
    // Texts need whole bytes before them.
    let whole = random.up_to(3) > 0;
    let (length, minimum) = any_lengths(random);
    let mut table = Table {
        fields: (0..count).map(|_| any_short_field(whole, random)).collect(),
        sets: any_sets(count, random),
        length,
        minimum,
    };
    for set in &table.sets {
        table.fields[set.counter] = any_counter(whole, random);
    }
    if random.up_to(2) == 0 {
        table.fields[count - 1] = any_last_text(random);
    }
    table
}

/// Both, one or none; short, so that payloads are often in between.
fn any_lengths(random: &mut Random) -> (Option<usize>, Option<usize>) {
    let low = 1 + random.up_to(15);
    let high = low + random.up_to(15);
    match random.up_to(7) {
        0..=3 => (None, None),
        4 => (Some(high), None),
        5 => (None, Some(low)),
        _ => (Some(high), Some(low)),
    }
}

/// Up to two sets, which may share a counter.
fn any_sets(count: usize, random: &mut Random) -> Vec<Set> {
    let mut sets: Vec<Set> = Vec::new();
    let wanted = random.among(&[0, 0, 1, 1, 2]);
    let mut free = 1;
    for _ in 0..wanted {
        if free >= count {
            break;
        }
        let start = free + random.up_to(2.min(count - 1 - free));
        let size = 1 + random.up_to(2.min(count - 1 - start));
        sets.push(Set {
            start,
            size,
            counter: random.among(&[0, free - 1, start - 1]),
            maximum: random.among(&[1, 2, 3, 5, 45, ELEMENTS_MAX]),
        });
        free = start + size;
    }
    sets
}

fn any_counter(whole: bool, random: &mut Random) -> Field {
    let width = match (whole, random.up_to(7)) {
        (true, 0) => random.among(&[16, 24, 32]),
        (true, _) => 8,
        (false, _) => 1 + random.up_to(9) as u32,
    };
    field(random.among(&[Kind::Number, Kind::Lookup]), width)
}

/// A StringLz, or a StringFix around the size from which on it may stop early.
fn any_last_text(random: &mut Random) -> Field {
    let size = FIXED_TEXT_MAX - 1 + random.up_to(10);
    match random.up_to(2) {
        0 => field(Kind::StringFix, 8 * size as u32),
        _ => bare(Kind::StringLz),
    }
}

/// A field of one kind, as narrow as it lets it be. A StringFix may be as long as one that stops early.
pub fn any_field_of(kind: Kind, random: &mut Random) -> Field {
    loop {
        let whole = random.up_to(1) == 0;
        let field = match random.up_to(20) {
            0 => any_last_text(random),
            _ => any_short_field(whole, random),
        };
        if field.kind == kind {
            return field;
        }
    }
}

/// A field of any kind but StringLz, as narrow as its kind lets it be.
fn any_short_field(whole: bool, random: &mut Random) -> Field {
    let mut field = any_field(random);
    while field.kind == Kind::StringLz {
        field = any_field(random);
    }
    let bytes = 8 * (1 + random.up_to(3)) as u32;
    let bits = 1 + random.up_to(20) as u32;
    match field.kind {
        Kind::StringFix => field.width = Some(bytes),
        Kind::Float | Kind::StringLau => {}
        Kind::Date | Kind::Mmsi if field.scale.is_none() => {}
        _ if whole => field.width = Some(bytes),
        // Wide ones stay: every width is met.
        _ if random.up_to(3) > 0 => field.width = Some(bits),
        _ => {}
    }
    field
}
