//! The comparison through the interface, over sets of tables. Each test is the library, or the model, against
//! another side; every case is one call of the library.
use super::call::Call;
use super::held::{Answered, Held};
use super::test::{LeftOut, Test, leave_out, report_left_out};
use super::unknown;
use crate::cases::SEED;
use crate::pair::Pair;
use crate::random::Random;
use crate::report::Report;
use crate::tables::accepted::any_table;
use crate::tables::built_in::{self, is_table_of};
use crate::tables::small::any_small_table;
use model::tables::{self, Table};

/// How many calls there are.
pub const QUICK: usize = 400_000;
pub const FULL: usize = 4_000_000;

/// From so many calls on, counters of so many bits are gone through one by one.
const MANY: usize = 1_000_000;
const MANY_BITS: u32 = 9;

/// How many hundredths of the calls a set has: of small tables, of any, of each that is built in, by its words
/// and as often by its PGN, of damaged ones, and of PGNs that are not built in.
pub struct Shares {
    pub small: usize,
    pub any: usize,
    pub built_in: usize,
    pub damaged: usize,
    pub unknown: usize,
}

/// Decoding or encoding. It counts what is met over all sets.
pub trait Interface: Default {
    type Case: Held;
    /// The call by words. By a PGN it has `_pgn` at its end.
    const CALL: &'static str;
    /// What its calls are.
    const CALLS: &'static str;
    const LEFT_OUT: &'static str;
    const PAIRS: &'static [Pair];
    /// What is mixed into the seed.
    const SEED: u64;
    const SHARES: Shares;
    /// Counters of so many bits are always gone through one by one.
    const FEW_BITS: u32;
    /// The outcomes of cases that are gone through one by one, and of tables of any kind.
    const ONE_BY_ONE: &'static [u32];
    const ANY: &'static [u32];
    /// The outcomes of a table that is built in.
    fn outcomes(table: &Table) -> &'static [u32];

    fn one_by_one(counter_bits: u32, each: &mut dyn FnMut(Vec<Self::Case>));
    fn cases_of(table: &Table, random: &mut Random) -> Vec<Self::Case>;
    /// Cases of a table that is damaged.
    fn refused_cases(table: &Table, random: &mut Random) -> Vec<Self::Case>;
    /// A case of a table of no words at all.
    fn without_words(random: &mut Random) -> Self::Case;
    /// A call by a PGN that is not built in: 15 with the PGN, whatever else it is given.
    fn unknown(pgn: u32, random: &mut Random) -> Result<(), String>;
    fn taken(case: &Self::Case, call: Call) -> Box<<Self::Case as Held>::Ours>;

    /// A set begins.
    fn open(&mut self, _set: &str, _call: Call) {}
    /// Asks all sides for cases of one table.
    fn ask(
        &mut self,
        call: Call,
        cases: Vec<Self::Case>,
        random: &mut Random,
        each: &mut dyn FnMut(&dyn Answered<Self::Case>),
    );
    /// A set ends.
    fn close(&mut self, _report: &mut Report) {}
    fn report(&self, report: &mut Report);
}

/// Runs every test, with so many calls or some more.
pub fn run<I: Interface>(calls: usize, report: &mut Report) {
    let mut run = Run::<I> {
        interface: I::default(),
        random: Random::new(SEED ^ I::SEED),
        left_out: LeftOut::<I::Case>::default(),
        calls: 0,
        hundredth: 0,
        report,
    };
    run.one_by_one(if calls < MANY { I::FEW_BITS } else { MANY_BITS });
    run.hundredth = calls.saturating_sub(run.calls).div_ceil(100);
    run.tables("small tables", I::SHARES.small, any_small_table);
    run.tables("any tables", I::SHARES.any, any_table);
    for (pgn, table) in built_in::by_pgn() {
        for call in [Call::Words, Call::Pgn(pgn)] {
            let mut set = Set::new(&mut run, &pgn.to_string(), call, I::outcomes(&table));
            set.fill(I::SHARES.built_in, |random| I::cases_of(&table, random));
            set.report();
        }
    }
    run.damaged();
    run.unknown();
    run.close(calls);
}

struct Run<'a, I: Interface> {
    interface: I,
    random: Random,
    left_out: LeftOut<I::Case>,
    calls: usize,
    /// The calls of which a set has so many times as it is told.
    hundredth: usize,
    report: &'a mut Report,
}

impl<I: Interface> Run<'_, I> {
    fn one_by_one(&mut self, counter_bits: u32) {
        let mut set = Set::new(self, "one by one", Call::Words, I::ONE_BY_ONE);
        I::one_by_one(counter_bits, &mut |cases| set.add(cases));
        set.report();
    }

    fn tables(&mut self, name: &str, hundredths: usize, any: fn(&mut Random) -> Table) {
        let mut set = Set::new(self, name, Call::Words, I::ANY);
        set.fill(hundredths, |random| I::cases_of(&any(random), random));
        set.report();
    }

    fn damaged(&mut self) {
        let mut set = Set::new(self, "damaged tables", Call::Words, &[7, 8]);
        while !set.is_full(I::SHARES.damaged) {
            set.draw(|random| I::refused_cases(&any_small_table(random), random));
            if set.run.random.up_to(15) == 0 {
                set.draw(|random| vec![I::without_words(random)]);
            }
        }
        set.report();
    }

    fn unknown(&mut self) {
        let count = I::SHARES.unknown * self.hundredth;
        let name = format!("PGNs that are not built in, by {}_pgn", I::CALL);
        let outcome = unknown::outcome(count, &mut self.random, I::unknown);
        self.report.line(&name, outcome);
        self.calls += count;
    }

    fn close(self, wanted: usize) {
        let made = self.calls.to_string();
        let is_enough = self.calls >= wanted;
        let outcome = if is_enough { Ok(made) } else { Err(made) };
        let name = format!("{} through the interface", I::CALLS);
        self.report.line(&name, outcome);
        self.interface.report(self.report);
        report_left_out::<I::Case>(&self.left_out, I::LEFT_OUT, self.report);
    }
}

/// A set of cases, and the sides held against each other over it.
struct Set<'r, 'a, I: Interface> {
    run: &'r mut Run<'a, I>,
    call: Call,
    tests: Vec<Test<I::Case>>,
    calls: usize,
}

impl<'r, 'a, I: Interface> Set<'r, 'a, I> {
    fn new(run: &'r mut Run<'a, I>, name: &str, call: Call, wanted: &[u32]) -> Set<'r, 'a, I> {
        run.interface.open(name, call);
        let name = match call {
            Call::Words => format!("{name}, by {}", I::CALL),
            Call::Pgn(_) => format!("{name}, by {}_pgn", I::CALL),
        };
        let tests = I::PAIRS.iter().map(|&pair| Test::new(pair, &name, wanted));
        Set {
            run,
            call,
            tests: tests.collect(),
            calls: 0,
        }
    }

    fn is_full(&self, hundredths: usize) -> bool {
        self.calls >= hundredths * self.run.hundredth
    }

    fn fill(&mut self, hundredths: usize, cases: impl Fn(&mut Random) -> Vec<I::Case>) {
        while !self.is_full(hundredths) {
            self.draw(&cases);
        }
    }

    fn draw(&mut self, cases: impl FnOnce(&mut Random) -> Vec<I::Case>) {
        let cases = cases(&mut self.run.random);
        self.add(cases);
    }

    /// Cases of one table.
    fn add(&mut self, cases: Vec<I::Case>) {
        let run = &mut *self.run;
        let each = &mut |answers: &dyn Answered<I::Case>| {
            for test in &mut self.tests {
                test.compare(answers);
            }
            leave_out(&mut run.left_out, answers);
            self.calls += 1;
        };
        (run.interface).ask(self.call, cases, &mut run.random, each);
    }

    fn report(self) {
        self.run.calls += self.calls;
        for test in &self.tests {
            test.report(&|cases| ask::<I>(self.call, cases), self.run.report);
        }
        self.run.interface.close(self.run.report);
    }
}

/// Asks again, to make cases smaller. A PGN has a table of its own: a case of another is not asked.
fn ask<I: Interface>(call: Call, cases: &[I::Case]) -> Vec<Option<Box<<I::Case as Held>::Ours>>> {
    let is_asked = |case: &I::Case| match call {
        Call::Words => true,
        Call::Pgn(pgn) => is_table_of(pgn, &tables::read(case.words())),
    };
    let taken = |case: &I::Case| is_asked(case).then(|| I::taken(case, call));
    cases.iter().map(taken).collect()
}
