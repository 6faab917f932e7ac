//! Where among the values, which come in walk order, those of a field stand. The Rust asks for them by name
//! and takes the number of elements from its caller: here it is what the counter's value says.
use super::kinds::takes_value;
use crate::payload::described::number_field;
use model::numbers;
use model::tables::{Field, Set, Table};
use model::writing::Given;

pub struct Laid {
    /// Of each field outside sets that takes a value.
    plain: Vec<Option<usize>>,
    /// Of each set. None from a counter on that says no number.
    sets: Vec<Option<Elements>>,
}

struct Elements {
    count: u64,
    first: usize,
    /// The fields of an element that take a value.
    taking: Vec<usize>,
}

impl Laid {
    pub fn new(table: &Table, values: &[Given]) -> Laid {
        let mut laid = Laid {
            plain: vec![None; table.fields.len()],
            sets: Vec::new(),
        };
        let mut next = Some(0usize);
        for (i, field) in table.fields.iter().enumerate() {
            if let Some(set) = table.sets.iter().find(|set| set.start == i) {
                let elements = next.and_then(|first| laid.elements(table, set, first, values));
                next = (elements.as_ref()).map(Elements::end);
                laid.sets.push(elements);
            } else if !table.in_a_set(i) && takes_value(field) {
                laid.plain[i] = next;
                next = next.map(|next| next.saturating_add(1));
            }
        }
        laid
    }

    fn elements(
        &self,
        table: &Table,
        set: &Set,
        first: usize,
        values: &[Given],
    ) -> Option<Elements> {
        let value = values.get((*self.plain.get(set.counter)?)?)?;
        let taking = set.range().filter(|&i| takes_value(&table.fields[i]));
        Some(Elements {
            count: elements_of(&table.fields[set.counter], *value)?,
            first,
            taking: taking.collect(),
        })
    }

    pub fn place(&self, field: usize) -> Option<usize> {
        self.plain[field]
    }

    /// The elements of a set.
    pub fn count(&self, set: usize) -> Option<u64> {
        Some(self.sets.get(set)?.as_ref()?.count)
    }

    pub fn place_in(&self, set: usize, element: usize, field: usize) -> Option<usize> {
        let elements = self.sets.get(set)?.as_ref()?;
        let offset = elements.taking.iter().position(|&one| one == field)?;
        let before = element.saturating_mul(elements.taking.len());
        Some(elements.first.saturating_add(before).saturating_add(offset))
    }
}

impl Elements {
    fn end(&self) -> usize {
        let all = (self.count as usize).saturating_mul(self.taking.len());
        self.first.saturating_add(all)
    }
}

/// The elements that a counter's value means.
fn elements_of(counter: &Field, value: Given) -> Option<u64> {
    let (Given::Number(value), Some(width)) = (value, counter.width) else {
        return None;
    };
    let raw = numbers::raw_of(&number_field(counter), value).ok()?;
    Some(numbers::elements(width, raw))
}
