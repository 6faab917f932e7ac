//! The comparison on reading payloads. Each test is one side against another, over one set of cases.
use super::asked::Asked;
use super::case::Case;
use super::cases::{cases_of, refused_cases};
use super::coverage::Coverage;
use super::kept::Kept;
use super::met::Met;
use super::program::Program;
use super::sides::{Answers, Given};
use super::{by_hand, exhaustive, malformed};
use crate::cases::SEED;
use crate::pair::Pair;
use crate::payload::test::{LeftOut, Test, leave_out, report_left_out};
use crate::random::Random;
use crate::report::Report;
use crate::tables::accepted::any_table;
use crate::tables::built_in;
use crate::tables::small::any_small_table;
use crate::tables::words::any_words;
use model::tables::Table;
use std::rc::Rc;

/// How many tables of each set.
struct Amount {
    small: usize,
    any: usize,
    built_in: usize,
    refused: usize,
    /// In how many of the four ways each number is changed, where demand 3 is checked.
    ways: usize,
    /// Counters of up to so many bits are gone through one by one.
    counter_bits: u32,
}

const QUICK: Amount = Amount {
    small: 4_000,
    any: 1_000,
    built_in: 150,
    refused: 5_000,
    ways: 1,
    counter_bits: 5,
};

const FULL: Amount = Amount {
    small: 60_000,
    any: 15_000,
    built_in: 3_000,
    refused: 60_000,
    ways: 4,
    counter_bits: 9,
};

/// The outcomes of tables of any kind.
const ANY: [u32; 7] = [0, 2, 3, 4, 5, 7, 9];

/// The lines that are passed to one run of the program.
const LINES: usize = 4_000;

/// Runs every test on reading payloads.
pub fn run(quick: bool, program: &Result<Program, String>, report: &mut Report) {
    let amount = if quick { QUICK } else { FULL };
    let mut random = Random::new(SEED);
    let mut counts = Counts::default();
    by_hand::run(program, report);
    malformed::run(program, report);

    let mut set = Set::new("one by one", &[0, 2, 3, 4, 5], program, &mut counts);
    set.check_changes(amount.ways);
    exhaustive::all(amount.counter_bits, &mut |cases| set.add(cases));
    set.report(report);

    let mut set = Set::new("small tables", &ANY, program, &mut counts);
    set.check_changes(amount.ways);
    set.add_tables(amount.small, any_small_table, &mut random);
    set.report(report);

    let mut set = Set::new("any tables", &ANY, program, &mut counts);
    set.check_changes(amount.ways);
    set.add_tables(amount.any, any_table, &mut random);
    set.report(report);

    let mut set = Set::new("built-in tables", &[0, 2, 4, 7, 9], program, &mut counts);
    set.check_changes(amount.ways);
    for table in built_in::all() {
        set.add_tables(amount.built_in, |_| table.clone(), &mut random);
    }
    set.report(report);

    let mut set = Set::new("damaged tables", &[7, 8], program, &mut counts);
    for _ in 0..amount.refused {
        let table = any_small_table(&mut random);
        set.add(refused_cases(&table, &mut random));
    }
    set.report(report);
    counts.report(program, report);
}

/// What is counted over all sets.
#[derive(Default)]
struct Counts {
    left_out: LeftOut<Case>,
    coverage: Coverage,
    met: Met,
}

impl Counts {
    fn report(&self, program: &Result<Program, String>, report: &mut Report) {
        report.line("shapes of readings met", self.coverage.outcome());
        let asked = |outcome| program.as_ref().map_err(String::clone).and(outcome);
        report.line("shapes of spans met", asked(self.met.covered()));
        report.line("shapes of numbers changed", asked(self.met.changed()));
        report_left_out::<Case>(&self.left_out, "left out with the Rust", report);
    }
}

/// A set of cases, and the sides held against each other over it.
struct Set<'a> {
    name: &'static str,
    program: &'a Result<Program, String>,
    counts: &'a mut Counts,
    tests: [Test<Case>; 5],
    /// Demand 3, where it is checked.
    kept: Option<Kept>,
    waiting: Vec<(Case, Rc<Asked>)>,
    /// What went wrong with the program.
    fault: Option<String>,
}

impl<'a> Set<'a> {
    fn new(
        name: &'static str,
        wanted: &'static [u32],
        program: &'a Result<Program, String>,
        counts: &'a mut Counts,
    ) -> Set<'a> {
        Set {
            name,
            program,
            counts,
            tests: Pair::ALL.map(|pair| Test::new(pair, name, wanted)),
            kept: None,
            waiting: Vec::new(),
            fault: None,
        }
    }

    /// Checks demand 3 too, with each number changed in so many ways.
    fn check_changes(&mut self, ways: usize) {
        self.kept = Some(Kept::new(self.name, ways));
    }

    fn add_tables(
        &mut self,
        count: usize,
        any: impl Fn(&mut Random) -> Table,
        random: &mut Random,
    ) {
        for _ in 0..count {
            let table = any(random);
            let words = any_words(&table, random);
            self.add(cases_of(&table, &words, random));
        }
    }

    /// Cases of one table.
    fn add(&mut self, cases: Vec<Case>) {
        let Some(first) = cases.first() else { return };
        let asked = Rc::new(Asked::new(&first.words));
        let asked = cases.into_iter().map(|case| (case, Rc::clone(&asked)));
        self.waiting.extend(asked);
        if self.waiting.len() >= LINES {
            self.ask();
        }
    }

    fn ask(&mut self) {
        let waiting = std::mem::take(&mut self.waiting);
        let ours = self.ours(waiting.iter().map(|(case, _)| case));
        for (i, (case, asked)) in waiting.iter().enumerate() {
            let given = ours.get(i).map(|text| text as &dyn Given);
            let answers = Answers::new(case, asked, given);
            for test in &mut self.tests {
                test.compare(&answers);
            }
            leave_out(&mut self.counts.left_out, &answers);
            self.counts.coverage.add(&answers);
            if let (Some(kept), Some(ours)) = (&mut self.kept, ours.get(i)) {
                kept.add(case, &asked.table, ours, &mut self.counts.met);
            }
        }
        if let (Some(kept), Ok(program)) = (&mut self.kept, self.program) {
            kept.ask_many(program, &mut self.counts.met);
        }
    }

    /// The program's answers, none if it is missing or once it went wrong.
    fn ours<'c>(&mut self, cases: impl Iterator<Item = &'c Case>) -> Vec<String> {
        match self.program {
            Ok(program) if self.fault.is_none() => {
                let answers = program.answers_to(cases);
                self.fault = answers.as_ref().err().cloned();
                answers.unwrap_or_default()
            }
            _ => Vec::new(),
        }
    }

    fn report(mut self, report: &mut Report) {
        self.ask();
        let asked = match (self.program, &self.fault) {
            (Err(fault), _) | (_, Some(fault)) => Err(fault.clone()),
            (Ok(program), None) => Ok(program),
        };
        for test in &self.tests {
            match &asked {
                Err(fault) if test.pair.is_ours() => test.report_fault(fault, report),
                _ => test.report(&|cases| ask_program(self.program, cases), report),
            }
        }
        if let Some(kept) = self.kept {
            for (name, outcome) in kept.outcomes(asked, &mut self.counts.met) {
                report.line(&name, outcome);
            }
        }
    }
}

/// Asks the program, which answers nothing once it goes wrong.
fn ask_program(program: &Result<Program, String>, cases: &[Case]) -> Vec<Option<Box<dyn Given>>> {
    let answers = program
        .as_ref()
        .map(|program| program.answers_to(cases.iter()));
    let texts = answers.ok().and_then(Result::ok).unwrap_or_default();
    let given = |text: String| Some(Box::new(text) as Box<dyn Given>);
    texts.into_iter().map(given).collect()
}
