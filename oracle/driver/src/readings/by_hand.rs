//! Payloads whose answers were worked out by hand from document 01: its own cases, then each rule of
//! "Reading a payload".
use super::answer::{self, Answer};
use super::asked::Asked;
use super::case::Case;
use super::program::Program;
use super::sides::Answers;
use super::told::told;
use super::worked::Worked;
use super::{worked_papers, worked_refusals, worked_sets, worked_texts, worked_walks};
use crate::payload::held::differing;
use crate::report::Report;

pub fn run(program: &Result<Program, String>, report: &mut Report) {
    let all = all();
    report.line("payloads worked out by hand, by the model", by_model(&all));
    let name = "payloads worked out by hand, by the stand-ins";
    report.line(name, by_standin(&all));
    let ours = program.as_ref().map_err(String::clone);
    let name = "payloads worked out by hand, by ours";
    report.line(name, ours.and_then(|program| by_ours(&all, program)));
}

pub fn all() -> Vec<Worked> {
    let all = [
        worked_papers::all(),
        worked_walks::all(),
        worked_refusals::all(),
        worked_texts::all(),
        worked_sets::all(),
    ];
    all.into_iter().flatten().collect()
}

fn by_model(all: &[Worked]) -> Result<String, String> {
    for Worked { case, wanted } in all {
        let asked = Asked::new(&case.words);
        let given = answer::model(&asked.table, case).0.text();
        same(case, &given, wanted)?;
    }
    Ok(format!("{} cases", all.len()))
}

fn by_ours(all: &[Worked], program: &Program) -> Result<String, String> {
    let answers = program.answers_to(all.iter().map(|worked| &worked.case))?;
    for (Worked { case, wanted }, given) in all.iter().zip(answers) {
        same(case, &given, wanted)?;
    }
    Ok(format!("{} cases", all.len()))
}

/// Where the second oracle speaks: it has no refusals 7 and 8.
fn by_standin(all: &[Worked]) -> Result<String, String> {
    let mut count = 0;
    for Worked { case, wanted } in all {
        let asked = Asked::new(&case.words);
        let worked = Answer::parsed(wanted).ok_or(format!("no answer: {wanted}"))?;
        if let Some(standin) = Answers::new(case, &asked, None).standin {
            same(case, &standin.text(), &told(&worked, case, true).text())?;
            count += 1;
        }
    }
    Ok(format!("{count} cases"))
}

fn same(case: &Case, given: &str, wanted: &str) -> Result<(), String> {
    if given == wanted {
        return Ok(());
    }
    Err(differing(&case.line(), [given, wanted]))
}
