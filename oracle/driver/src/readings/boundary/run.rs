//! samopute_decode_run on the cases of samopute_decode: the same status, numbers and padding run, and each
//! struct its record.
use super::call::Taken;
use super::records::{self, COUNT, RECORD};
use crate::payload::call::{BEFORE, lent};
use crate::payload::smaller::Smaller;
use crate::readings::case::Case;
use crate::samopute::{self, CReading};
use crate::tally::Differing;
use std::hint::black_box;

/// What structs hold before a call. No reading is of such a field.
const POISON: CReading = CReading::of([BEFORE; 8]);

/// The call held against samopute_decode over one set of cases.
pub struct Test {
    pub name: String,
    cases: Differing<(Case, &'static str)>,
}

impl Test {
    pub fn new(set: &str) -> Test {
        Test {
            name: format!("samopute_decode_run against samopute_decode, {set}"),
            cases: Differing::default(),
        }
    }

    pub fn compare(&mut self, case: &Case, taken: &Taken) {
        self.cases.met += 1;
        if let Some(what) = difference(case, taken) {
            let is_smaller = |known: &(Case, _)| case.is_smaller(&known.0);
            self.cases.add(is_smaller, || (case.clone(), what));
        }
    }

    pub fn outcome(&self) -> Result<String, String> {
        let shown = |(case, what): &(Case, _)| format!(", in {what},\n  {}", case.line());
        self.cases.none(shown)?;
        match self.cases.met {
            0 => Err("no case".to_string()),
            met => Ok(format!("{met} cases")),
        }
    }
}

/// What the call leaves that samopute_decode does not, if there is something.
fn difference(case: &Case, taken: &Taken) -> Option<&'static str> {
    let room = case.room as usize;
    let words = case.words.clone();
    let (mut padding, mut answer) = (taken.before.padding.clone(), [BEFORE; 8]);
    // One that is not lent on each side.
    let mut structs = vec![POISON; room + 2];
    let payload = taken.before.payload.bytes();
    let status = samopute::decode_run(
        &words,
        payload,
        padding.bytes_mut(),
        &mut structs[1..=room],
        lent(&mut answer),
    );
    let (words, payload) = black_box((&words[..], payload));
    let parts = [
        ("the status", status == taken.status),
        ("the answer", answer == taken.answer),
        ("the padding run", padding == taken.after.padding),
        ("the structs", structs == wanted_structs(taken, room + 2)),
        ("the words", words == case.words),
        ("the payload", payload == case.payload),
    ];
    let differing = parts.into_iter().find(|(_, is_same)| !is_same);
    differing.map(|(what, _)| what)
}

/// So many structs: one as it was, those of the records, and again ones as they were.
fn wanted_structs(taken: &Taken, count: usize) -> Vec<CReading> {
    let bytes = taken.after.readings.bytes();
    let (stored, _) = bytes.get(COUNT..).unwrap_or_default().as_chunks::<RECORD>();
    let stored = stored.iter().take(taken.answer[1] as usize);
    let mut structs = vec![POISON];
    structs.extend(stored.map(|one| CReading::of(records::numbers(one))));
    structs.resize(count, POISON);
    structs
}
