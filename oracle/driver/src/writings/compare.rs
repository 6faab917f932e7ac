//! The comparison on writing values; every case is one encode.
use super::asked::Asked;
use super::call::Taken;
use super::case::Case;
use super::cases::{LONGEST, cases_of, refused_cases};
use super::coverage::Coverage;
use super::faults::any_record;
use super::read_back::ReadBack;
use super::sides::Answers;
use super::{by_hand, exhaustive, rust_only};
use crate::pair::Pair;
use crate::payload::call::Call;
use crate::payload::held::Answered;
use crate::payload::run::{Interface, Shares, run as run_all};
use crate::random::Random;
use crate::report::Report;
use crate::tables::words::any_words;
use model::tables::Table;

/// Runs every test, with so many encodes or some more.
pub fn run(encodes: usize, report: &mut Report) {
    by_hand::run(report);
    rust_only::run(report);
    run_all::<Encodes>(encodes, report);
}

/// What is counted over all sets.
#[derive(Default)]
struct Encodes {
    coverage: Coverage,
    read_back: ReadBack,
}

impl Interface for Encodes {
    type Case = Case;
    const CALL: &'static str = "samopute_encode";
    const CALLS: &'static str = "encodes";
    const LEFT_OUT: &'static str = "writings left out with the Rust";
    const PAIRS: &'static [Pair] = &Pair::ALL;
    const SEED: u64 = 2;
    const SHARES: Shares = Shares {
        small: 50,
        any: 20,
        built_in: 2,
        damaged: 10,
        unknown: 4,
    };
    const FEW_BITS: u32 = 4;
    const ONE_BY_ONE: &'static [u32] = Self::ANY;
    const ANY: &'static [u32] = &[0, 2, 3, 5, 7, 10, 11, 12, 13];

    /// One alone has a set.
    fn outcomes(table: &Table) -> &'static [u32] {
        match table.sets.len() {
            0 => &[0, 2, 7, 10, 11, 12],
            _ => &[0, 2, 5, 7, 10, 11, 12],
        }
    }

    fn one_by_one(counter_bits: u32, each: &mut dyn FnMut(Vec<Case>)) {
        exhaustive::all(counter_bits, each);
    }

    fn cases_of(table: &Table, random: &mut Random) -> Vec<Case> {
        let words = any_words(table, random);
        cases_of(table, &words, random)
    }

    fn refused_cases(table: &Table, random: &mut Random) -> Vec<Case> {
        refused_cases(table, random)
    }

    fn without_words(random: &mut Random) -> Case {
        let length = random.up_to(50);
        Case {
            size: random.up_to(LONGEST),
            words: Vec::new(),
            values: random.bytes(length),
            text: Vec::new(),
        }
    }

    /// 15 comes before 7, so the buffer may be too long.
    fn unknown(pgn: u32, random: &mut Random) -> Result<(), String> {
        let count = random.up_to(3);
        let text = random.up_to(9);
        let case = Case {
            size: random.up_to(LONGEST),
            words: Vec::new(),
            values: (0..count).flat_map(|_| any_record(random)).collect(),
            text: random.bytes(text),
        };
        let taken = Taken::new(&case, Call::Pgn(pgn));
        let is_refused = taken == taken.untouched(15, &[pgn.into()]);
        let text = || format!("{}\n  {}", case.line(), taken.text());
        is_refused.then_some(()).ok_or_else(text)
    }

    fn taken(case: &Case, call: Call) -> Box<Taken> {
        Box::new(Taken::new(case, call))
    }

    fn ask(
        &mut self,
        call: Call,
        cases: Vec<Case>,
        _random: &mut Random,
        each: &mut dyn FnMut(&dyn Answered<Case>),
    ) {
        let Some(first) = cases.first() else { return };
        let asked = Asked::new(&first.words);
        for case in &cases {
            let taken = Taken::new(case, call);
            let answers = Answers::new(case, &asked, Some(&taken));
            each(&answers);
            self.read_back.add(case, &answers.encoded, &taken);
            self.coverage.add(&answers);
        }
    }

    fn report(&self, report: &mut Report) {
        let name = "what was written, read back by samopute_decode";
        report.line(name, self.read_back.outcome());
        report.line("shapes of writings met", self.coverage.outcome());
        report.line("sizes of buffers met", self.coverage.sizes());
    }
}
