//! What a test counts: the cases by outcome, those that differ, and the smallest of them.
use crate::report::Report;
use std::collections::BTreeMap;

/// One more than the largest outcome that is counted.
pub const OUTCOMES: usize = 32;

/// Cases of one sort, those of them that differ, and what is kept of the smallest of these.
pub struct Differing<T> {
    pub met: usize,
    pub count: usize,
    pub smallest: Option<T>,
}

impl<T> Default for Differing<T> {
    fn default() -> Differing<T> {
        Differing {
            met: 0,
            count: 0,
            smallest: None,
        }
    }
}

impl<T> Differing<T> {
    /// Counts a case that differs, and keeps it if it is smaller than the one that is kept.
    pub fn add(&mut self, is_smaller: impl FnOnce(&T) -> bool, kept: impl FnOnce() -> T) {
        self.count += 1;
        if self.smallest.as_ref().is_none_or(is_smaller) {
            self.smallest = Some(kept());
        }
    }

    /// Fails if a case differs.
    pub fn none(&self, shown: impl FnOnce(&T) -> String) -> Result<(), String> {
        match &self.smallest {
            None => Ok(()),
            Some(kept) => Err(format!(
                "{} of {} cases differ, such as{}",
                self.count,
                self.met,
                shown(kept)
            )),
        }
    }
}

/// What is kept with its size: how the case is printed.
pub type Printed<S> = (S, String);

impl<S: Copy + PartialOrd> Differing<Printed<S>> {
    pub fn add_printed(&mut self, size: S, text: impl FnOnce() -> String) {
        self.add(|known| size < known.0, || (size, text()));
    }
}

/// One side held against another over one set of cases.
pub struct Tally<T> {
    pub name: String,
    outcome_name: fn(usize) -> String,
    /// The outcomes that have to be met, or the test shows nothing.
    wanted: Vec<usize>,
    met: [usize; OUTCOMES],
    pub differing: Differing<T>,
}

impl<T> Tally<T> {
    pub fn new(name: String, wanted: Vec<usize>, outcome_name: fn(usize) -> String) -> Tally<T> {
        Tally {
            name,
            outcome_name,
            wanted,
            met: [0; OUTCOMES],
            differing: Differing::default(),
        }
    }

    /// Outcomes that are numbers: 0 and refusals.
    pub fn numbered(name: String, wanted: impl IntoIterator<Item = u32>) -> Tally<T> {
        let wanted = wanted.into_iter().map(|number| number as usize);
        Tally::new(name, wanted.collect(), |number| number.to_string())
    }

    /// Counts a case by its outcome on the side that the other is held against.
    pub fn meet(&mut self, outcome: usize) {
        self.differing.met += 1;
        self.met[outcome] += 1;
    }

    /// How many cases there were of each outcome; or the smallest that differs, or an outcome that was missed.
    pub fn outcome(&self, shown: impl FnOnce(&T) -> String) -> Result<String, String> {
        self.differing.none(shown)?;
        if let Some(&missed) = self.wanted.iter().find(|&&outcome| self.met[outcome] == 0) {
            return Err(format!(
                "no case with outcome {}",
                (self.outcome_name)(missed)
            ));
        }
        let met = self.met.iter().enumerate().filter(|(_, count)| **count > 0);
        let met = met.map(|(outcome, count)| format!("{}: {count}", (self.outcome_name)(outcome)));
        let met: Vec<String> = met.collect();
        Ok(format!("{} cases ({})", self.differing.met, met.join(", ")))
    }
}

impl<S> Tally<Printed<S>> {
    pub fn report(&self, report: &mut Report) {
        report.line(&self.name, self.outcome(|(_, text)| text.clone()));
    }
}

/// Why a case, or a part of it, is not compared with the Rust.
pub trait Reason: Copy + Ord + 'static {
    const ALL: &'static [Self];
    /// What is counted under a reason, and how it differs.
    const COUNTED: [&'static str; 2];
    /// What the Rust does.
    fn text(self) -> &'static str;
}

/// What is left out with the Rust for each reason, and what is kept of it.
pub struct LeftOut<R, T>(BTreeMap<R, Differing<T>>);

impl<R, T> Default for LeftOut<R, T> {
    fn default() -> LeftOut<R, T> {
        LeftOut(BTreeMap::new())
    }
}

impl<R: Reason, T> LeftOut<R, T> {
    pub fn of(&mut self, reason: R) -> &mut Differing<T> {
        self.0.entry(reason).or_default()
    }

    /// A line for each reason, which fails if nothing differs under it: it would be left out for nothing.
    pub fn report(&self, name: &str, report: &mut Report, shown: impl Fn(R, &T) -> String) {
        let [what, how] = R::COUNTED;
        for &reason in R::ALL {
            let outcome = match self.0.get(&reason) {
                Some(Differing {
                    met,
                    count,
                    smallest: Some(kept),
                }) => Ok(format!(
                    "{met}{what}, {count} differ{how}, such as{}",
                    shown(reason, kept)
                )),
                other => {
                    let met = other.map_or(0, |cases| cases.met);
                    Err(format!("none of {met}{what} differs"))
                }
            };
            report.line(&format!("{name}, {}", reason.text()), outcome);
        }
    }
}
