//! The comparison on tables. Each test is the library against the model over one set of cases.
use super::accepted::{Coverage, any_table};
use super::answer::{ALL, Answer, hex, letter, outcome_of};
use super::damaged::{any_words, damage};
use super::smallest::shrink;
use super::words::{fill_unused, pack};
use super::{by_hand, exhaustive};
use crate::cases::SEED;
use crate::pair::Pair;
use crate::random::Random;
use crate::report::Report;
use crate::tally::Tally;
use model::tables;

struct Amount {
    accepted: usize,
    damaged: usize,
    made_up: usize,
    widths: u64,
    one_set: usize,
    two_sets: usize,
}

const QUICK: Amount = Amount {
    accepted: 100_000,
    damaged: 250_000,
    made_up: 250_000,
    widths: 67,
    one_set: 4,
    two_sets: 4,
};

const FULL: Amount = Amount {
    accepted: 2_000_000,
    damaged: 5_000_000,
    made_up: 5_000_000,
    widths: 2048,
    one_set: 5,
    two_sets: 5,
};

/// Runs every test on tables.
pub fn run(quick: bool, report: &mut Report) {
    let amount = if quick { QUICK } else { FULL };
    let mut random = Random::new(SEED);
    by_hand::run(report);
    accepted(amount.accepted, &mut random, report);

    let mut test = Test::new("damaged tables", ALL);
    for _ in 0..amount.damaged {
        let mut words = pack(&any_table(&mut random));
        damage(&mut words, &mut random);
        test.compare(&words);
    }
    test.report(report);

    let mut test = Test::new("random words", ALL);
    for _ in 0..amount.made_up {
        test.compare(&any_words(&mut random));
    }
    test.report(report);

    small(&amount, report);
}

/// Accepted tables, with all that says nothing filled in. That the model accepts them, and that words
/// read are the table packed, holds generator and model against each other.
fn accepted(count: usize, random: &mut Random, report: &mut Report) {
    let mut test = Test::new("accepted tables", "-");
    let mut coverage = Coverage::new();
    let mut refused = None;
    for _ in 0..count {
        let table = any_table(random);
        let mut words = pack(&table);
        fill_unused(&mut words, random);
        coverage.add(&table);
        test.compare(&words);
        let read = tables::read(&words);
        if refused.is_none() && (read != table || tables::check(&read).is_err()) {
            refused = Some((table, read));
        }
    }
    test.report(report);
    let outcome = match refused {
        Some((table, read)) => {
            let answer = tables::check(&read);
            Err(format!("{answer:?}\n  made {table:?}\n  read {read:?}"))
        }
        None => coverage.outcome(),
    };
    report.line("accepted tables by the model", outcome);
}

fn small(amount: &Amount, report: &mut Report) {
    let mut test = Test::new("every single field", "-bcde");
    exhaustive::single_fields(amount.widths, &mut |words| test.compare(words));
    test.report(report);
    let mut test = Test::new("every length and count", "-ag");
    exhaustive::lengths(&mut |words| test.compare(words));
    exhaustive::counts(&mut |words| test.compare(words));
    test.report(report);
    let mut test = Test::new("every set of a small table", "-fgh");
    exhaustive::one_set(amount.one_set, &mut |words| test.compare(words));
    test.report(report);
    let mut test = Test::new("every two sets of a small table", "-gh");
    exhaustive::two_sets(amount.two_sets, &mut |words| test.compare(words));
    test.report(report);
}

/// The differing cases that a failure prints.
const SHOWN: usize = 3;

/// Keeps the smallest differing cases, smallest first.
struct Test(Tally<Vec<Vec<u64>>>);

impl Test {
    fn new(set: &str, wanted: &str) -> Test {
        let name = format!("{}, {set}", Pair::OursModel.name("check"));
        let wanted = wanted.chars().map(outcome_of).collect();
        Test(Tally::new(name, wanted, |outcome| {
            letter(outcome as u64).unwrap_or('?').to_string()
        }))
    }

    fn compare(&mut self, words: &[u64]) {
        let (ours, model) = (Answer::ours(words), Answer::model(words));
        self.0.meet(model.rule());
        if ours != model {
            self.0.differing.count += 1;
            keep(self.0.differing.smallest.get_or_insert_default(), words);
        }
    }

    fn report(self, report: &mut Report) {
        report.line(&self.0.name, self.0.outcome(|smallest| all_shown(smallest)));
    }
}

fn keep(smallest: &mut Vec<Vec<u64>>, words: &[u64]) {
    let size = |words: &[u64]| (words.len(), words.to_vec());
    let place = smallest.partition_point(|known| size(known) < size(words));
    let is_known = smallest.get(place).is_some_and(|known| known == words);
    if place < SHOWN && !is_known {
        smallest.insert(place, words.to_vec());
        smallest.truncate(SHOWN);
    }
}

fn all_shown(smallest: &[Vec<u64>]) -> String {
    let differs = |words: &[u64]| Answer::ours(words) != Answer::model(words);
    let mut text = shown(&shrink(&smallest[0], &differs));
    text += "\n  made smaller from";
    text.extend(smallest.iter().map(|words| shown(words)));
    text
}

/// The words in hexadecimal, and both answers.
fn shown(words: &[u64]) -> String {
    format!(
        "\n  {}\n  ours: {}\n  model: {}",
        hex(words),
        Answer::ours(words).text(),
        Answer::model(words).text()
    )
}
