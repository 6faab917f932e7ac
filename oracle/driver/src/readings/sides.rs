//! The same case asked of the four sides: the program under test, the model, the oracle with stand-ins,
//! and the Rust unchanged.
use super::answer::{self, Answer};
use super::asked::Asked;
use super::case::Case;
use super::differences::{Excused, Reason, parting, same_but};
use super::told::{Told, short_slice, told};
use crate::pair::Pair;
use crate::payload::held::{Answered, Held};

/// What the sides answer to a case.
pub struct Answers<'a> {
    pub case: &'a Case,
    pub asked: &'a Asked,
    pub model: Answer,
    /// The stand-ins' answer, if they can be asked: they have no refusals 7 and 8. In theirs and in the
    /// Rust's, refusal 2 of a slice carries what ours carries.
    pub standin: Option<Told>,
    /// The Rust's answer, if it can be asked, and what of it is not compared.
    pub rust: Option<Told>,
    pub excused: Excused,
    ours: Option<Ours<'a>>,
    model_standin: Option<bool>,
    model_rust: Option<bool>,
}

/// What a side under test gave: the text of a program, or what a call of the library left.
pub trait Given {
    /// Whether it is this answer, in every byte.
    fn is(&self, model: &Answer) -> bool;
    /// The answer that it says, if it is of the form. Where it is the model's it may be none: what the
    /// model is held against, it is held against too.
    fn answer(&self, is_the_models: bool) -> Option<Answer>;
    fn text(&self) -> String;
}

impl Given for String {
    fn is(&self, model: &Answer) -> bool {
        *self == model.text()
    }

    fn answer(&self, is_the_models: bool) -> Option<Answer> {
        if is_the_models {
            None
        } else {
            Answer::parsed(self)
        }
    }

    fn text(&self) -> String {
        self.clone()
    }
}

/// The answer of the side under test.
struct Ours<'a> {
    given: &'a dyn Given,
    is_the_models: bool,
    answer: Option<Answer>,
}

impl<'a> Answers<'a> {
    pub fn new(case: &'a Case, asked: &'a Asked, ours: Option<&'a dyn Given>) -> Answers<'a> {
        let (model, stopped) = answer::model(&asked.table, case);
        let excused = Excused::new(asked, case, &model, stopped);
        let standin_speaks = excused.whole.is_none();
        let standin = standin_speaks.then(|| asked.standin(case)).flatten();
        let slice = short_slice(&asked.table, model.outcome, stopped);
        let mut answers = Answers {
            case,
            asked,
            standin: standin.map(|told| told.with_bytes_left(slice)),
            rust: asked.rust(case).map(|told| told.with_bytes_left(slice)),
            excused,
            ours: ours.map(|given| Ours::new(given, &model)),
            model,
            model_standin: None,
            model_rust: None,
        };
        answers.model_standin = answers.differs_from_standin(&answers.model);
        answers.model_rust = answers.differs_from_rust(&answers.model);
        answers
    }

    fn differs_from_standin(&self, answer: &Answer) -> Option<bool> {
        let standin = self.standin.as_ref()?;
        Some(*standin != told(answer, self.case, true))
    }

    fn differs_from_rust(&self, answer: &Answer) -> Option<bool> {
        let rust = (self.rust.as_ref()).filter(|_| self.excused.whole.is_none())?;
        Some(!same_but(
            &self.excused,
            &told(answer, self.case, false),
            rust,
        ))
    }
}

impl Ours<'_> {
    fn new<'a>(given: &'a dyn Given, model: &Answer) -> Ours<'a> {
        let is_the_models = given.is(model);
        Ours {
            given,
            is_the_models,
            answer: given.answer(is_the_models),
        }
    }

    /// Whether the answer differs from one that the model does, or does not, differ from.
    fn differs(&self, models: Option<bool>, own: impl Fn(&Answer) -> Option<bool>) -> Option<bool> {
        match &self.answer {
            Some(answer) => own(answer),
            None if self.is_the_models => models,
            None => models.map(|_| true),
        }
    }
}

impl Answered<Case> for Answers<'_> {
    fn case(&self) -> &Case {
        self.case
    }

    fn number(&self) -> u32 {
        self.model.number()
    }

    fn differs(&self, pair: Pair) -> Option<bool> {
        let ours = self.ours.as_ref();
        match pair {
            Pair::OursModel => Some(!ours?.is_the_models),
            Pair::OursStandin => ours?.differs(self.model_standin, |answer| {
                self.differs_from_standin(answer)
            }),
            Pair::OursRust => {
                ours?.differs(self.model_rust, |answer| self.differs_from_rust(answer))
            }
            Pair::ModelStandin => self.model_standin,
            Pair::ModelRust => self.model_rust,
        }
    }

    fn texts(&self, pair: Pair) -> [String; 2] {
        let side = match &self.ours {
            Some(ours) if pair.is_ours() => ours.given.text(),
            _ => self.model.text(),
        };
        let against = match pair {
            Pair::OursModel => Some(self.model.text()),
            Pair::OursStandin | Pair::ModelStandin => self.standin.as_ref().map(Told::text),
            Pair::OursRust | Pair::ModelRust => self.rust.as_ref().map(Told::text),
        };
        [side, against.unwrap_or_default()]
    }

    fn excused(&self) -> Vec<Reason> {
        self.excused.reasons()
    }

    fn parting(&self) -> Vec<Reason> {
        let Some(rust) = &self.rust else {
            return Vec::new();
        };
        parting(&self.excused, &told(&self.model, self.case, false), rust)
    }
}

impl Held for Case {
    type Ours = dyn Given;
    type Reason = Reason;
    const NAME: &'static str = "readings";

    fn words(&self) -> &[u64] {
        &self.words
    }

    fn line(&self) -> String {
        self.line()
    }

    fn last(&self) -> &[u8] {
        &self.payload
    }

    /// The oracles have neither 7 nor 8.
    fn has_outcome(pair: Pair, number: u32) -> bool {
        pair == Pair::OursModel || !matches!(number, 7 | 8)
    }

    fn asked<T>(
        &self,
        ours: Option<&Self::Ours>,
        then: impl FnOnce(&dyn Answered<Case>) -> T,
    ) -> T {
        let asked = Asked::new(&self.words);
        then(&Answers::new(
            self,
            &asked,
            ours.map(|ours| ours as &dyn Given),
        ))
    }
}
