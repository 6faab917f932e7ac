//! The comparison of decoding through the interface; every case is one decode.
use super::call::Taken;
use super::{by_hand, run};
use crate::pair::Pair;
use crate::payload::call::Call;
use crate::payload::held::Answered;
use crate::payload::run::{Interface, Shares, run as run_all};
use crate::random::Random;
use crate::readings::answer;
use crate::readings::asked::Asked;
use crate::readings::case::{AMPLE, Case};
use crate::readings::cases::{any_room, cases_of, refused_cases};
use crate::readings::coverage::Coverage;
use crate::readings::exhaustive;
use crate::readings::payloads::{made, sized};
use crate::readings::sides::{Answers, Given};
use crate::report::Report;
use crate::tables::words::any_words;
use model::numbers::Kind;
use model::reading::PADDING;
use model::tables::Table;

/// The longest payload of those whose length is any.
const LONGEST: usize = 230;

/// Runs every test, with so many decodes or some more.
pub fn run(decodes: usize, report: &mut Report) {
    by_hand::run(report);
    run_all::<Decodes>(decodes, report);
}

/// What is counted over all sets.
#[derive(Default)]
struct Decodes {
    coverage: Coverage,
    /// samopute_decode_run on the same cases; a PGN it does not take.
    run: Option<run::Test>,
}

impl Interface for Decodes {
    type Case = Case;
    const CALL: &'static str = "samopute_decode";
    const CALLS: &'static str = "decodes";
    const LEFT_OUT: &'static str = "left out with the Rust at the interface";
    const PAIRS: &'static [Pair] = &[Pair::OursModel, Pair::OursStandin, Pair::OursRust];
    const SEED: u64 = 1;
    const SHARES: Shares = Shares {
        small: 40,
        any: 20,
        built_in: 3,
        damaged: 12,
        unknown: 4,
    };
    const FEW_BITS: u32 = 3;
    const ONE_BY_ONE: &'static [u32] = &[0, 2, 3, 4, 5, 9];
    const ANY: &'static [u32] = &[0, 2, 3, 4, 5, 7, 9];

    fn outcomes(table: &Table) -> &'static [u32] {
        let has_others = table.fields.iter().any(|field| field.kind != Kind::Number);
        match has_others {
            true => &[0, 2, 4, 7, 9],
            false => &[0, 4, 7, 9],
        }
    }

    fn one_by_one(counter_bits: u32, each: &mut dyn FnMut(Vec<Case>)) {
        exhaustive::all(counter_bits, each);
    }

    fn cases_of(table: &Table, random: &mut Random) -> Vec<Case> {
        let words = any_words(table, random);
        let mut cases = cases_of(table, &words, random);
        for _ in 0..4 {
            let length = random.up_to(LONGEST);
            let base = made(table, random);
            let payload = sized(&base, length, random);
            cases.push(Case::usual(words.clone(), payload));
        }
        cases
    }

    fn refused_cases(table: &Table, random: &mut Random) -> Vec<Case> {
        refused_cases(table, random)
    }

    /// The program cannot be given such a table.
    fn without_words(random: &mut Random) -> Case {
        let length = random.up_to(LONGEST);
        Case {
            room: random.up_to(4) as u64,
            padding: random.among(&[PADDING, PADDING, PADDING + 1]),
            words: Vec::new(),
            payload: random.bytes(length),
        }
    }

    /// 15 comes before 7, so the lengths may be wrong too.
    fn unknown(pgn: u32, random: &mut Random) -> Result<(), String> {
        let length = random.up_to(LONGEST);
        let other = random.up_to(300);
        let case = Case {
            room: random.up_to(6) as u64,
            padding: random.among(&[PADDING, PADDING, PADDING - 1, other]),
            words: Vec::new(),
            payload: random.bytes(length),
        };
        let taken = Taken::new(&case, Call::Pgn(pgn));
        let is_refused = taken == taken.untouched(15, [pgn.into(), 0, 0]);
        let text = || format!("{}\n  {}", case.line(), taken.text());
        is_refused.then_some(()).ok_or_else(text)
    }

    fn taken(case: &Case, call: Call) -> Box<dyn Given> {
        Box::new(Taken::new(case, call))
    }

    fn open(&mut self, set: &str, call: Call) {
        self.run = match call {
            Call::Words => Some(run::Test::new(set)),
            Call::Pgn(_) => None,
        };
    }

    fn ask(
        &mut self,
        call: Call,
        cases: Vec<Case>,
        random: &mut Random,
        each: &mut dyn FnMut(&dyn Answered<Case>),
    ) {
        let Some(first) = cases.first() else { return };
        let asked = Asked::new(&first.words);
        for mut case in cases {
            case.room = fitting(&asked.table, &case, random);
            let taken = Taken::new(&case, call);
            if let Some(run) = &mut self.run {
                run.compare(&case, &taken);
            }
            let answers = Answers::new(&case, &asked, Some(&taken));
            each(&answers);
            self.coverage.add(&answers);
        }
    }

    fn close(&mut self, report: &mut Report) {
        if let Some(run) = &self.run {
            report.line(&run.name, run.outcome());
        }
    }

    fn report(&self, report: &mut Report) {
        let name = "shapes of readings met at the interface";
        report.line(name, self.coverage.outcome());
    }
}

/// The room of a case. Ample room would be a buffer that is mostly never looked at: it becomes room for
/// all readings and a few more, or less.
fn fitting(table: &Table, case: &Case, random: &mut Random) -> u64 {
    let ample = Case {
        room: AMPLE,
        ..case.clone()
    };
    let count = answer::model(table, &ample).0.readings.len() as u64;
    let room = match case.room {
        AMPLE => any_room(count, random),
        room => room,
    };
    room.min(count + random.up_to(3) as u64)
}
