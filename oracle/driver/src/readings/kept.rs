//! Demand 3, held against the program's answers alone, over the cases of one set that decode: the cover of
//! each; of some, what stays where a number is changed, and where the room just suffices or does not.
use super::answer::Answer;
use super::case::Case;
use super::changes::{Change, Way, is_changed};
use super::cover::cover;
use super::met::Met;
use super::program::Program;
use crate::cases::SEED;
use crate::payload::smaller::Smaller;
use crate::random::Random;
use crate::tally::Differing;
use model::reading::{Content, Reading, filled_length};
use model::tables::Table;
use std::rc::Rc;

/// Of the cases that decode, one in so many is changed.
const ONE_IN: usize = 20;

/// The lines that are passed to one run of the program.
const LINES: usize = 4_000;

pub struct Kept {
    set: &'static str,
    /// How many of the ways each number is changed in.
    ways: usize,
    random: Random,
    cover: Test,
    change: Test,
    ways_met: [usize; Way::ALL.len()],
    room: Test,
    rooms_met: [usize; 2],
    waiting: Vec<Probe>,
    /// What went wrong with the program.
    fault: Option<String>,
}

/// An answer that decodes.
struct Decoded {
    case: Case,
    text: String,
    answer: Answer,
}

/// The same case but for a number or for its room.
struct Probe {
    before: Rc<Decoded>,
    case: Case,
    wanted: Wanted,
}

enum Wanted {
    Change(Change),
    /// The room is of as many readings as there are.
    Alike,
    /// There is room for one reading less.
    NoRoom,
}

/// The cases that fail, and the smallest of them as it is shown.
type Test = Differing<(Case, String)>;

impl Kept {
    pub fn new(set: &'static str, ways: usize) -> Kept {
        Kept {
            set,
            ways,
            random: Random::new(SEED),
            cover: Test::default(),
            change: Test::default(),
            ways_met: [0; Way::ALL.len()],
            room: Test::default(),
            rooms_met: [0; 2],
            waiting: Vec::new(),
            fault: None,
        }
    }

    /// Adds a case with the program's answer, if that has an end.
    pub fn add(&mut self, case: &Case, table: &Table, text: &str, met: &mut Met) {
        if !text.lines().any(|line| line.starts_with("E ")) {
            return;
        }
        let answer = Answer::parsed(text);
        let covered = match &answer {
            Some(answer) => cover(table, case.payload.len(), answer, met),
            None => Err("the lines are not of the form, or are not as many as E says".to_string()),
        };
        let fails = covered.map_err(|why| shown(case, text, None, &why));
        add(&mut self.cover, case, fails);
        if let Some(answer) = answer
            && self.random.up_to(ONE_IN - 1) == 0
        {
            let before = Rc::new(Decoded {
                case: case.clone(),
                text: text.to_string(),
                answer,
            });
            self.add_changes(&before, table, met);
            self.add_rooms(&before);
        }
    }

    fn add_changes(&mut self, before: &Rc<Decoded>, table: &Table, met: &mut Met) {
        for (number, reading) in before.answer.readings.iter().enumerate() {
            if let Err(left) = is_changed(table, &before.case, reading) {
                met.add(left);
                continue;
            }
            let first = self.random.up_to(Way::ALL.len() - 1);
            for way in 0..self.ways {
                let way = Way::ALL[(first + way) % Way::ALL.len()];
                self.ways_met[way as usize] += 1;
                meet(before, table, number, met);
                let change = Change::new(number, reading, way, &before.case, &mut self.random);
                self.waiting.push(Probe {
                    before: Rc::clone(before),
                    case: change.made(&before.case),
                    wanted: Wanted::Change(change),
                });
            }
        }
    }

    fn add_rooms(&mut self, before: &Rc<Decoded>) {
        let count = before.answer.readings.len() as u64;
        let enough = Some((count, Wanted::Alike));
        let too_few = count.checked_sub(1).map(|room| (room, Wanted::NoRoom));
        for (room, wanted) in enough.into_iter().chain(too_few) {
            self.rooms_met[usize::from(room < count)] += 1;
            self.waiting.push(Probe {
                before: Rc::clone(before),
                case: Case {
                    room,
                    ..before.case.clone()
                },
                wanted,
            });
        }
    }

    /// Asks the program, once enough is waiting.
    pub fn ask_many(&mut self, program: &Program, met: &mut Met) {
        if self.waiting.len() >= LINES {
            self.ask(program, met);
        }
    }

    fn ask(&mut self, program: &Program, met: &mut Met) {
        let waiting = std::mem::take(&mut self.waiting);
        if self.fault.is_some() {
            return;
        }
        let answers = program.answers_to(waiting.iter().map(|probe| &probe.case));
        self.fault = answers.as_ref().err().cloned();
        for (probe, after) in waiting.iter().zip(answers.unwrap_or_default()) {
            let test = match probe.wanted {
                Wanted::Change(_) => &mut self.change,
                Wanted::Alike | Wanted::NoRoom => &mut self.room,
            };
            let Decoded { case, text, .. } = &*probe.before;
            let fails = probe
                .holds(&after, met)
                .map_err(|why| shown(case, text, Some((&probe.case, &after)), &why));
            add(test, case, fails);
        }
    }

    /// The outcomes by name. Without a program there is none to ask.
    pub fn outcomes(
        mut self,
        program: Result<&Program, String>,
        met: &mut Met,
    ) -> [(String, Result<String, String>); 3] {
        if let Ok(program) = program {
            self.ask(program, met);
        }
        let fault = program.err().or(self.fault.take());
        let held = |test: &Test, met: String| match &fault {
            Some(fault) => Err(fault.clone()),
            None => outcome(test, &met),
        };
        let ways = Way::ALL.map(|way| format!("{}: {}", way.name(), self.ways_met[way as usize]));
        let ways = format!("payloads ({})", ways.join(", "));
        let [enough, less] = self.rooms_met;
        let rooms = format!("rooms (just enough: {enough}, one too few: {less})");
        [
            (
                "readings cover the payload",
                &self.cover,
                "cases".to_string(),
            ),
            ("readings with a number changed", &self.change, ways),
            ("readings where room is short", &self.room, rooms),
        ]
        .map(|(what, test, met)| (format!("{what}, {}", self.set), held(test, met)))
    }
}

/// What is met where a reading is changed.
fn meet(before: &Decoded, table: &Table, number: usize, met: &mut Met) {
    let readings = &before.answer.readings;
    let reading = &readings[number];
    let later = &readings[number + 1..];
    met.add_kind(table.fields[reading.field].kind);
    if filled_length(table, before.case.payload.len()).is_some() {
        met.add("filled payloads");
    }
    if reading.element.is_some() {
        met.add("fields in sets");
    }
    let end = reading.start + reading.bits;
    let next = later.first().map(|one| one.start);
    if next.or(before.answer.outcome.ok()) > Some(end) {
        met.add("fields beside skipped ones");
    }
    let is_text = |one: &Reading| matches!(one.content, Content::Bytes { .. });
    if later.iter().any(is_text) {
        met.add("fields before texts");
    }
    if reading.element.is_none() && later.iter().any(|one| one.element.is_some()) {
        met.add("fields before sets");
    }
    if !reading.start.is_multiple_of(8) && reading.start / 8 < (end - 1) / 8 {
        met.add("fields in two bytes or more, not aligned");
    }
}

impl Probe {
    fn holds(&self, after: &str, met: &mut Met) -> Result<(), String> {
        let Decoded { text, answer, .. } = &*self.before;
        match &self.wanted {
            Wanted::Change(change) => {
                change.keeps_the_rest(text, answer, after)?;
                let became = |state: &str| {
                    let line = after.lines().nth(change.reading);
                    line.is_some_and(|line| line.split(' ').nth(5) == Some(state))
                };
                match answer.readings[change.reading].available {
                    true if became("N") => met.add("made not available"),
                    false if became("A") => met.add("made available"),
                    _ => {}
                }
                Ok(())
            }
            Wanted::Alike if after == text => Ok(()),
            Wanted::Alike => Err("the room is just enough".to_string()),
            Wanted::NoRoom if after == without_last(text, answer) => Ok(()),
            Wanted::NoRoom => Err("the room is one too few".to_string()),
        }
    }
}

/// The text of an answer whose last reading finds no room.
fn without_last(text: &str, answer: &Answer) -> String {
    let lines: Vec<&str> = text.lines().collect();
    let last = answer.readings.len() - 1;
    let refusal = format!("F 9 {}", answer.readings[last].field);
    let kept = lines[..last].iter().copied();
    let lines = kept.chain([&refusal[..], lines[lines.len() - 1]]);
    lines.flat_map(|line| [line, "\n"]).collect()
}

fn add(test: &mut Test, case: &Case, fails: Result<(), String>) {
    test.met += 1;
    if let Err(shown) = fails {
        let is_smaller = |known: &(Case, _)| case.is_smaller(&known.0);
        test.add(is_smaller, || (case.clone(), shown));
    }
}

fn outcome(test: &Test, met: &str) -> Result<String, String> {
    let cases = test.met;
    match &test.smallest {
        Some((_, shown)) => Err(format!(
            "{} of {cases} fail, such as\n  {shown}",
            test.count
        )),
        None if cases == 0 => Err("no case decodes".to_string()),
        None => Ok(format!("{cases} {met}")),
    }
}

/// A case, the changed one if there is one, and the answers.
fn shown(case: &Case, text: &str, changed: Option<(&Case, &str)>, why: &str) -> String {
    let with_answer = |case: &Case, text: &str| {
        let text = text.trim_end().replace('\n', "\n    ");
        format!("{}\n    {text}", case.line())
    };
    let changed =
        changed.map(|(case, text)| format!("\n  changed to\n  {}", with_answer(case, text)));
    format!(
        "{}{}\n  {why}",
        with_answer(case, text),
        changed.unwrap_or_default()
    )
}
