//! A decode through the interface, and all that it leaves.
use super::lent::Buffers;
use super::records::{self, COUNT, RECORD};
use crate::payload::call::{BEFORE, Call, Left, lent};
use crate::readings::answer::Answer;
use crate::readings::case::Case;
use crate::readings::refusal;
use crate::readings::sides::Given;
use crate::samopute;
use model::reading::{Fault, Reading};
use std::fmt::Write;
use std::hint::black_box;

/// The six numbers of the answer are lent.
pub type Taken = Left<Buffers, 8>;

impl Taken {
    pub fn new(case: &Case, call: Call) -> Taken {
        let before = Buffers::new(case);
        let mut after = before.clone();
        let words = case.words.clone();
        let mut answer = [BEFORE; 8];
        let (payload, lent) = (before.payload.bytes(), lent(&mut answer));
        let (padding, readings) = (after.padding.bytes_mut(), after.readings.bytes_mut());
        let status = match call {
            Call::Words => samopute::decode(&words, payload, padding, readings, lent),
            Call::Pgn(pgn) => samopute::decode_pgn(pgn, payload, padding, readings, lent),
        };
        // The compiler takes both for unchanged, as they are lent to be read only.
        let (words, payload) = black_box((&words[..], payload));
        Taken {
            status,
            answer,
            is_input_kept: words == case.words && payload == case.payload,
            after,
            before,
        }
    }

    /// What a call leaves that touches no buffer.
    pub fn untouched(&self, status: u32, carried: [u64; 3]) -> Taken {
        self.wanted(status, [0, 0, carried[0], carried[1], carried[2], 0])
    }

    /// What a call leaves that gives this answer.
    fn of_answer(&self, answer: &Answer) -> Taken {
        let [one, two, three] = match answer.outcome {
            Ok(end) => [end as u64, 0, 0],
            Err(fault) => refusal::carried(fault),
        };
        if let Err(Fault::Length(_) | Fault::Table(_)) = answer.outcome {
            return self.untouched(answer.number(), [one, two, three]);
        }
        let count = answer.readings.len() as u64;
        // The run is told by the model up to its last changed byte: where it is filled, that is its length.
        let filled = answer.padding.len() as u64;
        let unit = answer.outcome.err().map_or(0, refusal::unit);
        let numbers = [count, filled, one, two, three, unit];
        let mut taken = self.wanted(answer.number(), numbers);
        taken.after.padding.put(0, &answer.padding);
        let readings = &mut taken.after.readings;
        if readings.bytes().len() >= COUNT {
            readings.put(0, &count.to_le_bytes());
        }
        for (i, reading) in answer.readings.iter().enumerate() {
            let record = records::record(reading).map(u64::to_le_bytes);
            readings.put(COUNT + i * RECORD, record.as_flattened());
        }
        taken
    }

    /// The readings that are stored, if their count and each of them is of the form.
    fn readings(&self) -> Option<Vec<Reading>> {
        let bytes = self.after.readings.bytes();
        let is_untouched = matches!(self.status, 7 | 8) || bytes.len() < COUNT;
        if is_untouched {
            return Some(Vec::new());
        }
        let (count, records) = bytes.split_first_chunk()?;
        let count = usize::try_from(u64::from_le_bytes(*count)).ok()?;
        let (records, _) = records.as_chunks::<RECORD>();
        let stored = records.get(..count)?.iter();
        stored
            .map(|one| records::reading(records::numbers(one)))
            .collect()
    }

    /// The padding run up to the last byte that is changed.
    fn padding(&self) -> Vec<u8> {
        let (after, before) = (self.after.padding.bytes(), self.before.padding.bytes());
        let changed = (0..after.len()).rfind(|&at| after[at] != before[at]);
        after[..changed.map_or(0, |last| last + 1)].to_vec()
    }

    /// What was written that should not be.
    fn strayed(&self) -> String {
        let mut text = String::new();
        let runs = [
            ("padding", &self.after.padding, &self.before.padding),
            ("readings", &self.after.readings, &self.before.readings),
        ];
        for (name, after, before) in runs {
            if let Some(at) = after.changed_around(before) {
                writeln!(text, "written outside: {name}, byte {at}").unwrap();
            }
        }
        if self.is_answer_strayed() {
            writeln!(text, "written outside: answer").unwrap();
        }
        if let Some(at) = self.changed_behind() {
            writeln!(text, "written behind the readings: byte {at}").unwrap();
        }
        if !self.is_input_kept {
            writeln!(text, "the words or the payload are changed").unwrap();
        }
        text
    }

    /// The first byte behind the count and the records that is not as it was.
    fn changed_behind(&self) -> Option<usize> {
        let (after, before) = (self.after.readings.bytes(), self.before.readings.bytes());
        let end = match self.status {
            7 | 8 | 15 => 0,
            _ if after.len() < COUNT => 0,
            _ => RECORD
                .saturating_mul(self.answer[1] as usize)
                .saturating_add(COUNT),
        };
        (end..after.len()).find(|&at| after[at] != before[at])
    }
}

impl Given for Taken {
    fn is(&self, model: &Answer) -> bool {
        *self == self.of_answer(model)
    }

    /// Read from the records also where they are the model's.
    fn answer(&self, _is_the_models: bool) -> Option<Answer> {
        let [_, count, filled, one, rest @ .., unit, _] = self.answer;
        let outcome = match (self.status, rest) {
            (0, [0, 0]) if unit == 0 => Ok(one as usize),
            (0, _) => return None,
            (number, [two, three]) => Err(refusal::fault(number, [one, two, three], unit)?),
        };
        let answer = Answer {
            readings: self.readings()?,
            outcome,
            padding: self.padding(),
        };
        let is_whole =
            count == answer.readings.len() as u64 && filled == answer.padding.len() as u64;
        is_whole.then_some(answer)
    }

    fn text(&self) -> String {
        let readings = self.after.readings.bytes();
        let said = match self.answer(false) {
            Some(answer) => answer.text(),
            None => {
                let (words, _) = readings.as_chunks::<8>();
                let words = words.iter().take(1 + 3 * 8);
                let words: Vec<u64> = words.map(|word| u64::from_le_bytes(*word)).collect();
                format!("readings of no form, which begin {words:X?}\n")
            }
        };
        format!(
            "{said}status {}, answer {:X?}, readings in {} bytes\n{}",
            self.status,
            &self.answer[1..7],
            readings.len(),
            self.strayed()
        )
    }
}
