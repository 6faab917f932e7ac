//! An encode through the interface, and all that it leaves.
use super::answer::{self, Answer, Outcome};
use super::case::Case;
use super::lent::Buffers;
use crate::case::hex;
use crate::payload::call::{BEFORE, Call, Left, lent};
use crate::samopute;
use model::writing::Fault;
use std::fmt::Write;
use std::hint::black_box;

/// The four numbers of the answer are lent.
pub type Taken = Left<Buffers, 6>;

impl Taken {
    pub fn new(case: &Case, call: Call) -> Taken {
        let before = Buffers::new(case);
        let mut after = before.clone();
        let words = case.words.clone();
        let mut answer = [BEFORE; 6];
        let (values, text) = (before.values.bytes(), before.text.bytes());
        let (payload, lent) = (after.payload.bytes_mut(), lent(&mut answer));
        let status = match call {
            Call::Words => samopute::encode(&words, values, text, payload, lent),
            Call::Pgn(pgn) => samopute::encode_pgn(pgn, values, text, payload, lent),
        };
        // The compiler takes these for unchanged, as they are lent to be read only.
        let (words, values, text) = black_box((&words[..], values, text));
        Taken {
            status,
            answer,
            is_input_kept: words == case.words && values == case.values && text == case.text,
            after,
            before,
        }
    }

    /// What a call leaves that touches no buffer.
    pub fn untouched(&self, status: u32, carried: &[u64]) -> Taken {
        let mut numbers = [0; 4];
        numbers[1..=carried.len()].copy_from_slice(carried);
        self.wanted(status, numbers)
    }

    /// What a call leaves that gives this answer, which is not one of the Rust's own.
    fn of_answer(&self, answer: &Answer) -> Taken {
        let mut taken = match answer.outcome {
            Outcome::Refused(fault) => self.untouched(fault.number(), &answer::carried(fault)),
            Outcome::Used(used) => self.wanted(0, [used as u64, 0, 0, 0]),
            Outcome::Other(_) => unreachable!("the model has numbers"),
        };
        if !is_untouched(&answer.outcome) {
            taken.after.payload.put(0, &answer.buffer);
        }
        taken
    }

    /// Whether it is this answer, in every byte.
    pub fn is(&self, model: &Answer) -> bool {
        *self == self.of_answer(model)
    }

    /// The answer that it says, if it is of the form.
    pub fn answer(&self) -> Option<Answer> {
        let [_, used, one, two, three, _] = self.answer;
        let outcome = match (self.status, [one, two, three]) {
            (0, [0, 0, 0]) => Outcome::Used(used as usize),
            (0, _) => return None,
            (number, carried) => {
                let fault = answer::fault(number, carried).filter(|_| used == 0)?;
                Outcome::Refused(fault)
            }
        };
        let buffer = self.after.payload.bytes().to_vec();
        Some(Answer { outcome, buffer })
    }

    pub fn text(&self) -> String {
        let mut text = match self.answer() {
            Some(answer) => answer.text(),
            None => format!("no answer | {}", hex(self.after.payload.bytes())),
        };
        let numbers = &self.answer[1..5];
        write!(text, "\nstatus {}, answer {numbers:X?}", self.status).unwrap();
        if let Some(at) = self.after.payload.changed_around(&self.before.payload) {
            write!(text, "\nwritten outside: payload, byte {at}").unwrap();
        }
        if self.is_answer_strayed() {
            write!(text, "\nwritten outside: answer").unwrap();
        }
        if !self.is_input_kept {
            write!(text, "\nthe words, the values or the text are changed").unwrap();
        }
        text
    }

    /// The bytes used of an accepted encode, as far as they are there.
    pub fn used(&self) -> Option<&[u8]> {
        let used = usize::try_from(self.answer[1]).ok()?;
        let bytes = self.after.payload.bytes().get(..used);
        bytes.filter(|_| self.status == 0)
    }
}

/// "Refusals 7 and 8 touch no buffer."
fn is_untouched(outcome: &Outcome) -> bool {
    matches!(
        outcome,
        Outcome::Refused(Fault::Length(_) | Fault::Table(_))
    )
}
