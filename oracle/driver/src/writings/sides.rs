//! The same case asked of the four sides: the library under test, the model, the oracle with stand-ins, and
//! the Rust unchanged.
use super::answer::{self, Answer, Outcome};
use super::asked::Asked;
use super::call::Taken;
use super::case::Case;
use super::differences::{Reason, reasons};
use crate::pair::Pair;
use crate::payload::held::{Answered, Held};
use model::writing::{Encoded, Fault};

/// What the sides answer to a case.
pub struct Answers<'a> {
    pub case: &'a Case,
    pub asked: &'a Asked,
    pub model: Answer,
    /// The model's walk.
    pub encoded: Encoded,
    /// The stand-ins' answer, if they can be asked: they have no refusals 7 and 8.
    pub standin: Option<Answer>,
    /// The Rust's answer, if it can be asked, and why it is not compared.
    pub rust: Option<Answer>,
    pub excused: Vec<Reason>,
    ours: Option<Ours<'a>>,
}

/// The answer of the library.
struct Ours<'a> {
    taken: &'a Taken,
    is_the_models: bool,
    answer: Option<Answer>,
}

impl<'a> Answers<'a> {
    pub fn new(case: &'a Case, asked: &'a Asked, ours: Option<&'a Taken>) -> Answers<'a> {
        let (model, encoded) = answer::model(&asked.table, case);
        let has_walk = !matches!(
            model.outcome,
            Outcome::Refused(Fault::Length(_) | Fault::Table(_))
        );
        let standin = asked.standin.as_ref().filter(|_| has_walk);
        Answers {
            case,
            asked,
            standin: standin.map(|standin| standin.write(case)),
            rust: asked.rust.as_ref().map(|rust| rust.write(case)),
            excused: reasons(asked, case, &encoded),
            ours: ours.map(|taken| Ours {
                taken,
                is_the_models: taken.is(&model),
                answer: taken.answer(),
            }),
            model,
            encoded,
        }
    }

    /// The answer that a side is held against, if it can be asked.
    fn against(&self, pair: Pair) -> Option<&Answer> {
        match pair {
            Pair::OursModel => Some(&self.model),
            Pair::OursStandin | Pair::ModelStandin => self.standin.as_ref(),
            Pair::OursRust | Pair::ModelRust => self.rust.as_ref(),
        }
    }
}

impl Ours<'_> {
    fn differs(&self, from: &Answer) -> bool {
        self.answer.as_ref() != Some(from)
    }
}

impl Answered<Case> for Answers<'_> {
    fn case(&self) -> &Case {
        self.case
    }

    fn number(&self) -> u32 {
        self.model.number()
    }

    fn differs(&self, pair: Pair) -> Option<bool> {
        let is_rust = matches!(pair, Pair::OursRust | Pair::ModelRust);
        let is_compared = !is_rust || self.excused.is_empty();
        let against = self.against(pair).filter(|_| is_compared)?;
        match (pair, &self.ours) {
            (Pair::OursModel, Some(ours)) => Some(!ours.is_the_models),
            (Pair::OursStandin | Pair::OursRust, Some(ours)) => Some(ours.differs(against)),
            (Pair::ModelStandin | Pair::ModelRust, _) => Some(self.model != *against),
            (_, None) => None,
        }
    }

    fn texts(&self, pair: Pair) -> [String; 2] {
        let side = match &self.ours {
            Some(ours) if pair.is_ours() => ours.taken.text(),
            _ => self.model.text(),
        };
        [side, self.against(pair).map_or(String::new(), Answer::text)]
    }

    fn excused(&self) -> Vec<Reason> {
        let mut all = self.excused.clone();
        all.sort_unstable();
        all.dedup();
        all
    }

    /// The reason for which the Rust does differ, if there is no other.
    fn parting(&self) -> Vec<Reason> {
        let mut excused = self.excused();
        let differs = self.rust.as_ref().is_some_and(|rust| *rust != self.model);
        excused.retain(|_| differs);
        if excused.len() == 1 { excused } else { vec![] }
    }
}

impl Held for Case {
    type Ours = Taken;
    type Reason = Reason;
    const NAME: &'static str = "writings";

    fn words(&self) -> &[u64] {
        &self.words
    }

    fn line(&self) -> String {
        self.line()
    }

    fn last(&self) -> &[u8] {
        &self.text
    }

    /// The oracles have neither 7 nor 8, the Rust no 5.
    fn has_outcome(pair: Pair, number: u32) -> bool {
        match pair {
            Pair::OursModel => true,
            Pair::OursStandin | Pair::ModelStandin => !matches!(number, 7 | 8),
            Pair::OursRust | Pair::ModelRust => !matches!(number, 5 | 7 | 8),
        }
    }

    fn asked<T>(&self, ours: Option<&Taken>, then: impl FnOnce(&dyn Answered<Case>) -> T) -> T {
        let asked = Asked::new(&self.words);
        then(&Answers::new(self, &asked, ours))
    }
}
