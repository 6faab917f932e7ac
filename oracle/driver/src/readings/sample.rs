//! The sample on readings: a fixed list of cases and the answers of the model, which the oracle with
//! stand-ins gives as well wherever it speaks, to be replayed without Rust.
use super::answer::Answer;
use super::asked::Asked;
use super::by_hand;
use super::case::Case;
use super::cases::{LONGEST, any_room, cases_of, refused_cases};
use super::payloads::{damaged, made, sized};
use super::sides::Answers;
use super::worked::Worked;
use crate::pair::Pair;
use crate::payload::held::Answered;
use crate::random::Random;
use crate::sampled::Sampled;
use crate::tables::built_in::{self, number};
use crate::tables::small::{any_field_of, any_small_table};
use crate::tables::words::{any_words, pack};
use model::numbers::Kind;
use model::reading::{Fault, PADDING};
use model::tables::{KINDS, PAYLOAD_MAX, Table};

/// The longest table, in fields, but for those that are built in.
const FIELDS: usize = 6;

pub fn print_cases() {
    for (case, _) in sample() {
        println!("{}", case.line());
    }
}

pub fn print_answers() {
    for (_, answer) in sample() {
        print!("{}", answer.text());
    }
}

fn sample() -> Vec<(Case, Answer)> {
    let mut sample = Sample(Sampled::new(Case::line));
    for Worked { case, .. } in by_hand::all() {
        let answer = ask(&case);
        sample.0.take(case, answer);
    }
    let kinds = KINDS.into_iter();
    for kind in kinds.filter(|kind| !matches!(kind, Kind::Decimal | Kind::Unimplemented)) {
        sample.add_kind(kind);
    }
    sample.add_sets();
    sample.add_filling();
    sample.add_room();
    sample.add_built_in();
    sample.add_lengths();
    sample.add_broken();
    sample.0.taken
}

/// The model's answer. The stand-ins and the Rust may not part from it but for what is known.
fn ask(case: &Case) -> Answer {
    let asked = Asked::new(&case.words);
    let answers = Answers::new(case, &asked, None);
    for pair in [Pair::ModelStandin, Pair::ModelRust] {
        assert_ne!(answers.differs(pair), Some(true), "{}", case.line());
    }
    answers.model
}

struct Sample(Sampled<Case, Answer>);

impl Sample {
    /// So many new cases that fit.
    fn draw(
        &mut self,
        share: usize,
        make: impl Fn(&mut Random) -> (Table, Case),
        fits: impl Fn(&Table, &Answer) -> bool,
    ) {
        self.0.draw(share, |random| {
            let (table, case) = make(random);
            let answer = ask(&case);
            fits(&table, &answer).then_some((case, answer))
        });
    }

    /// Good ones, those that end before or in the field, and damaged ones.
    fn add_kind(&mut self, kind: Kind) {
        let good = |random: &mut Random| {
            let table = around(kind, random);
            let payload = made(&table, random);
            usual(table, payload)
        };
        let short = |random: &mut Random| {
            let (table, mut case) = good(random);
            let length = case.payload.len().saturating_sub(1);
            case.payload.truncate(random.up_to(length));
            (table, case)
        };
        let broken = |random: &mut Random| {
            let (table, mut case) = good(random);
            case.payload = damaged(&case.payload, random);
            (table, case)
        };
        let is_kind = |table: &Table, field: usize| table.fields[field].kind == kind;
        self.draw(6, good, |_, answer| answer.outcome.is_ok());
        self.draw(4, short, |table, answer| match answer.outcome {
            Err(Fault::Bits { field, .. } | Fault::Cut { field }) => is_kind(table, field),
            // The last text of many bytes is never cut short.
            _ => kind == Kind::StringFix,
        });
        self.draw(4, broken, |_, _| true);
    }

    fn add_sets(&mut self) {
        let any = |random: &mut Random| {
            let table = any_few(random, |table| !table.sets.is_empty());
            let payload = made(&table, random);
            usual(table, payload)
        };
        let cut = |random: &mut Random| {
            let (table, mut case) = any(random);
            case.payload = damaged(&case.payload, random);
            let length = case.payload.len();
            case.payload.truncate(random.up_to(length));
            (table, case)
        };
        let has_elements =
            |answer: &Answer| (answer.readings.iter()).any(|reading| reading.element.is_some());
        self.draw(20, any, |_, answer| {
            answer.outcome.is_ok() && has_elements(answer)
        });
        self.draw(12, any, |_, answer| answer.number() == 5);
        self.draw(15, cut, |_, answer| {
            matches!(answer.number(), 2..=4) && has_elements(answer)
        });
    }

    fn add_filling(&mut self) {
        let any = |random: &mut Random| {
            let has_both = |table: &Table| table.length.is_some() && table.minimum.is_some();
            let table = any_few(random, has_both);
            let payload = made(&table, random);
            let near = [table.minimum.unwrap_or(0), table.length.unwrap_or(0)];
            let near = random.among(&near);
            let length = random.near(near, 2);
            let payload = sized(&payload, length, random);
            usual(table, payload)
        };
        let is_filled = |answer: &Answer| !answer.padding.is_empty();
        self.draw(16, any, |_, answer| {
            is_filled(answer) && answer.outcome.is_ok()
        });
        self.draw(8, any, |_, answer| {
            is_filled(answer) && answer.outcome.is_err()
        });
        self.draw(8, any, |_, answer| !is_filled(answer));
    }

    fn add_room(&mut self) {
        let any = |random: &mut Random| {
            let table = any_few(random, |_| true);
            let payload = made(&table, random);
            let (table, mut case) = usual(table, payload);
            let count = ask(&case).readings.len() as u64;
            case.room = any_room(count, random);
            (table, case)
        };
        self.draw(20, any, |_, answer| answer.number() == 9);
        self.draw(15, any, |_, answer| answer.number() != 9);
    }

    fn add_built_in(&mut self) {
        for table in built_in::all() {
            let any = |random: &mut Random| {
                let words = any_words(&table, random);
                let mut cases = cases_of(&table, &words, random);
                let at = random.up_to(cases.len() - 1);
                (table.clone(), cases.swap_remove(at))
            };
            self.draw(4, any, |_, answer| answer.outcome.is_ok());
            self.draw(3, any, |_, answer| answer.outcome.is_err());
        }
    }

    /// Refusal 7 of the payload and of the run, and the longest payload that is read.
    fn add_lengths(&mut self) {
        let any = |random: &mut Random| {
            let table = any_few(random, |_| true);
            let length = random.among(&[8, PAYLOAD_MAX, PAYLOAD_MAX + 1, LONGEST]);
            let base = made(&table, random);
            let payload = sized(&base, length, random);
            let (table, mut case) = usual(table, payload);
            case.padding = random.among(&[0, PADDING - 1, PADDING, PADDING + 1, LONGEST]);
            (table, case)
        };
        self.draw(14, any, |_, answer| answer.number() == 7);
        self.draw(4, any, |_, answer| answer.number() != 7);
    }

    /// Refusal 8 by each rule.
    fn add_broken(&mut self) {
        for letter in 'a'..='h' {
            let any = |random: &mut Random| {
                let table = any_few(random, |_| true);
                let mut cases = refused_cases(&table, random);
                cases.retain(|case| case.words.len() <= 2 * FIELDS);
                match cases.pop() {
                    Some(case) => (table, case),
                    None => usual(table, Vec::new()),
                }
            };
            self.draw(3, any, |_, answer| {
                matches!(answer.outcome, Err(Fault::Table((rule, _))) if rule == letter)
            });
        }
    }
}

/// A case with the usual run and ample room.
fn usual(table: Table, payload: Vec<u8>) -> (Table, Case) {
    let case = Case::usual(pack(&table), payload);
    (table, case)
}

fn any_few(random: &mut Random, fits: impl Fn(&Table) -> bool) -> Table {
    loop {
        let table = any_small_table(random);
        if table.fields.len() <= FIELDS && fits(&table) {
            return table;
        }
    }
}

/// A table with a field of the kind, at times a number before it and one behind it.
fn around(kind: Kind, random: &mut Random) -> Table {
    let mut fields = vec![any_field_of(kind, random)];
    match random.up_to(3) {
        0 => fields.insert(0, number(4)),
        1 => fields.insert(0, number(8)),
        _ => {}
    }
    if kind != Kind::StringLz && random.up_to(1) == 0 {
        fields.push(number(8));
    }
    built_in::table(&fields, &[])
}
