//! The cover: the spans of an answer's readings and of the fields that its walk skips, laid end to end.
//! The walk goes by the table and by what the answer itself says of counters and texts.
use super::answer::Answer;
use super::met::Met;
use model::numbers::{self, Kind};
use model::reading::{Content, FIXED_TEXT_MAX, Reading, filled_length};
use model::tables::{Field, Set, Table};

/// Whether each bit from 0 to the end is in one span, and what was met.
pub fn cover(table: &Table, received: usize, answer: &Answer, met: &mut Met) -> Result<(), String> {
    let filled = filled_length(table, received);
    let mut walk = Walk {
        table,
        bits: 8 * filled.unwrap_or(received),
        readings: &answer.readings,
        read: 0,
        cursor: 0,
        met,
    };
    walk.run()?;
    walk.close(answer)?;
    if filled.is_some() {
        met.add("filled payloads covered");
    }
    if answer.readings.is_empty() {
        met.add("payloads without a reading");
    }
    Ok(())
}

struct Walk<'a> {
    table: &'a Table,
    /// The bits of the working payload.
    bits: usize,
    readings: &'a [Reading],
    /// How many of them are laid.
    read: usize,
    cursor: usize,
    met: &'a mut Met,
}

impl Walk<'_> {
    fn run(&mut self) -> Result<(), String> {
        for field in 0..self.table.fields.len() {
            let sets = &self.table.sets;
            match sets.iter().position(|set| set.start == field) {
                Some(set) => self.set(set)?,
                None if self.table.in_a_set(field) => {}
                None => self.field(field, None)?,
            }
        }
        Ok(())
    }

    fn set(&mut self, number: usize) -> Result<(), String> {
        let set = &self.table.sets[number];
        let fields = &self.table.fields[set.range()];
        let count = self.count(set)?;
        if count > set.maximum {
            return Err(format!("set {number} has {count} elements"));
        }
        if count > 0 && fields.iter().all(is_skipped) {
            self.met.add("sets of skipped fields only");
        }
        for element in 0..count {
            for field in set.range() {
                self.field(field, Some(element))?;
            }
        }
        Ok(())
    }

    /// The elements that the answer's own counter means, as far as they fit.
    fn count(&self, set: &Set) -> Result<usize, String> {
        let laid = &self.readings[..self.read];
        let counter = laid.iter().find(|one| one.field == set.counter);
        let Some(Content::Number { raw, .. }) = counter.map(|one| one.content) else {
            return Err(format!("field {}, a counter, has no raw", set.counter));
        };
        let width = self.table.fields[set.counter].width.unwrap_or(0);
        let fields = &self.table.fields[set.range()];
        let declared: usize = fields.iter().map(width_of).sum();
        let fits = self.bits.saturating_sub(self.cursor) / declared;
        Ok(numbers::elements(width, raw).min(fits as u64) as usize)
    }

    /// Lays a field where the one before it ended.
    fn field(&mut self, field: usize, element: Option<usize>) -> Result<(), String> {
        let described = &self.table.fields[field];
        if is_skipped(described) {
            self.cursor += width_of(described);
            self.met.add(match element {
                None => "fields skipped",
                Some(_) => "fields skipped in sets",
            });
            return Ok(());
        }
        let name = format!("field {field} of element {element:?}");
        let Some(reading) = self.readings.get(self.read) else {
            return Err(format!("{name} has no reading"));
        };
        if (reading.field, reading.element) != (field, element) {
            return Err(format!("reading {} is not {name}", self.read));
        }
        if reading.start != self.cursor {
            return Err(format!(
                "{name} starts at {}, the bits before it end at {}",
                reading.start, self.cursor
            ));
        }
        let last = element.is_none() && field + 1 == self.table.fields.len();
        let left = self.bits.saturating_sub(self.cursor);
        if !takes(described, reading, last, left) {
            return Err(format!("{name} takes {} bits", reading.bits));
        }
        self.met.add(match (reading.bits, element) {
            (0, _) => "readings of no bits",
            (_, None) => "readings",
            (_, Some(_)) => "readings in sets",
        });
        self.read += 1;
        self.cursor += reading.bits;
        Ok(())
    }

    fn close(&self, answer: &Answer) -> Result<(), String> {
        let Walk { cursor, bits, .. } = *self;
        if self.read != answer.readings.len() {
            return Err(format!("reading {} is one too many", self.read));
        }
        if answer.outcome != Ok(cursor) {
            return Err(format!("the spans end at {cursor}"));
        }
        if cursor > bits {
            return Err(format!("the spans end beyond the payload's {bits} bits"));
        }
        Ok(())
    }
}

/// Whether a reading takes the bits that its field declares, or those of the text that it has. `last` is
/// the last of the table, outside a set; `left` are the bits up to the payload's end.
fn takes(field: &Field, reading: &Reading, last: bool, left: usize) -> bool {
    let (width, bits) = (width_of(field), reading.bits);
    match (field.kind, reading.content) {
        (Kind::StringFix, Content::Bytes { length, .. }) => {
            let may_stop = last && width > 8 * FIXED_TEXT_MAX;
            let most = if may_stop { left / 8 * 8 } else { width };
            bits == width.min(most) && bits == 8 * length
        }
        // The zero after a text may be there or not.
        (Kind::StringLz, Content::Bytes { length, .. }) => {
            bits == 8 + 8 * length || bits == 16 + 8 * length
        }
        (Kind::StringLau, Content::Bytes { encoding: None, .. }) => bits == 8,
        (Kind::StringLau, Content::Bytes { length, .. }) => bits == 16 + 8 * length,
        (Kind::Binary, Content::Bytes { length, .. }) => bits == width && bits == 8 * length,
        (_, Content::Bytes { .. }) => false,
        (_, Content::Number { .. }) => bits == width,
    }
}

fn is_skipped(field: &Field) -> bool {
    matches!(field.kind, Kind::Reserved | Kind::Spare)
}

fn width_of(field: &Field) -> usize {
    field.width.unwrap_or(0) as usize
}
