//! One side held against another over one set of cases: what was met, and the smallest case that differs.
//! What is left out with the Rust: the smallest case of each reason.
use super::held::{Answered, Held, differing};
use crate::pair::Pair;
use crate::report::Report;
use crate::tally::{self, Tally};

/// Asks the side under test; no answers if it cannot be asked.
pub type Ask<'a, C> = &'a dyn Fn(&[C]) -> Vec<Option<Box<<C as Held>::Ours>>>;

pub struct Test<C> {
    pub pair: Pair,
    tally: Tally<C>,
}

impl<C: Held> Test<C> {
    pub fn new(pair: Pair, set: &str, wanted: &[u32]) -> Test<C> {
        let name = format!("{}, {set}", pair.name(C::NAME));
        let wanted = wanted.iter().copied();
        let wanted = wanted.filter(|&number| C::has_outcome(pair, number));
        Test {
            pair,
            tally: Tally::numbered(name, wanted),
        }
    }

    pub fn compare(&mut self, answers: &dyn Answered<C>) {
        let Some(differs) = answers.differs(self.pair) else {
            return;
        };
        self.tally.meet(answers.number() as usize);
        if differs {
            let case = answers.case();
            (self.tally.differing).add(|known| case.is_smaller(known), || case.clone());
        }
    }

    pub fn report(&self, ask: Ask<C>, report: &mut Report) {
        let outcome = self.tally.outcome(|case| self.shown(case, ask));
        report.line(&self.tally.name, outcome);
    }

    /// The side under test cannot be asked.
    pub fn report_fault(&self, fault: &str, report: &mut Report) {
        report.line(&self.tally.name, Err(fault.to_string()));
    }

    /// A case made as small as it gets while the two still differ, and both answers.
    fn shown(&self, case: &C, ask: Ask<C>) -> String {
        let pair = self.pair;
        let ours = |cases: &[C]| match pair.is_ours() {
            true => ask(cases),
            false => Vec::new(),
        };
        let case = case.shrunk(|cases| {
            let ours = ours(cases);
            let differs = |i: usize| {
                let ours = ours.get(i).and_then(Option::as_deref);
                cases[i].asked(ours, |answers| answers.differs(pair) == Some(true))
            };
            (0..cases.len()).find(|&i| differs(i))
        });
        let ours = ours(std::slice::from_ref(&case));
        let ours = ours.first().and_then(Option::as_deref);
        let texts = case.asked(ours, |answers| answers.texts(pair));
        differing(&case.line(), texts.each_ref().map(String::as_str))
    }
}

/// What is left out with the Rust for each reason.
pub type LeftOut<C> = tally::LeftOut<<C as Held>::Reason, C>;

pub fn leave_out<C: Held>(left_out: &mut LeftOut<C>, answers: &dyn Answered<C>) {
    for reason in answers.excused() {
        left_out.of(reason).met += 1;
    }
    let case = answers.case();
    for reason in answers.parting() {
        let cases = left_out.of(reason);
        cases.add(|known| case.is_smaller(known), || case.clone());
    }
}

/// Each with its smallest case, made as small as it gets, and both answers.
pub fn report_left_out<C: Held>(left_out: &LeftOut<C>, name: &str, report: &mut Report) {
    left_out.report(name, report, |reason, case| {
        let parts = |case: &C| case.asked(None, |answers| answers.parting().contains(&reason));
        let case = case.shrunk(|cases| cases.iter().position(parts));
        let texts = case.asked(None, |answers| answers.texts(Pair::ModelRust));
        let [here, there] = texts.map(|text| text.trim_end().replace('\n', ", "));
        let line = case.short_line();
        format!("\n  {line}\n  there: {there}\n  here: {here}")
    });
}
