//! A list of cases with their answers, none of them twice, the same at every run.
use crate::cases::SEED;
use crate::random::Random;
use std::collections::HashSet;

pub struct Sampled<C, A> {
    pub random: Random,
    line: fn(&C) -> String,
    known: HashSet<String>,
    pub taken: Vec<(C, A)>,
}

impl<C, A> Sampled<C, A> {
    /// None yet. A case is known by its line.
    pub fn new(line: fn(&C) -> String) -> Sampled<C, A> {
        Sampled {
            random: Random::new(SEED),
            line,
            known: HashSet::new(),
            taken: Vec::new(),
        }
    }

    /// True if the case is new.
    pub fn take(&mut self, case: C, answer: A) -> bool {
        let is_new = self.known.insert((self.line)(&case));
        if is_new {
            self.taken.push((case, answer));
        }
        is_new
    }

    /// So many new cases of those that are made.
    pub fn draw(&mut self, share: usize, make: impl Fn(&mut Random) -> Option<(C, A)>) {
        let mut left = share;
        while left > 0 {
            if let Some((case, answer)) = make(&mut self.random) {
                left -= usize::from(self.take(case, answer));
            }
        }
    }
}
