//! Values whose answers were worked out by hand from document 01: each refusal, then each rule of "Writing a
//! payload", then records written out.
use super::answer::{self, Answer, Outcome};
use super::asked::Asked;
use super::case::Case;
use super::sides::Answers;
use super::worked::Worked;
use super::{worked_records, worked_refusals, worked_walks};
use crate::case::hex;
use crate::payload::held::differing;
use crate::report::Report;
use crate::samopute;

/// What a buffer holds before a call, and bytes around it that are not lent.
const BEFORE: u8 = 0xA5;
const AROUND: usize = 16;

pub fn run(report: &mut Report) {
    let all = all();
    let name = "values worked out by hand, by the model";
    report.line(name, held(&all, by_model));
    let name = "values worked out by hand, by the stand-ins";
    report.line(name, held(&all, by_standin));
    let name = "values worked out by hand, by samopute_encode";
    report.line(name, held(&all, by_ours));
}

fn all() -> Vec<Worked> {
    let all = [
        worked_refusals::all(),
        worked_walks::all(),
        worked_records::all(),
    ];
    all.into_iter().flatten().collect()
}

/// Holds what a side answers against what was worked out. It answers nothing where it does not speak.
fn held(all: &[Worked], side: fn(&Case) -> Option<Answer>) -> Result<String, String> {
    let mut count = 0;
    for one in all {
        let Some(Answer { outcome, buffer }) = side(&one.case) else {
            continue;
        };
        let given = format!("{} | {}", outcome.text(), hex(&buffer));
        let wanted = format!("{} | {}", one.outcome, hex(&one.buffer));
        if given != wanted {
            return Err(differing(&one.case.line(), [&given, &wanted]));
        }
        count += 1;
    }
    Ok(format!("{count} cases"))
}

fn by_model(case: &Case) -> Option<Answer> {
    let asked = Asked::new(&case.words);
    Some(answer::model(&asked.table, case).0)
}

/// The second oracle has no refusals 7 and 8.
fn by_standin(case: &Case) -> Option<Answer> {
    let asked = Asked::new(&case.words);
    Answers::new(case, &asked, None).standin
}

/// What is not of the form is an answer with its numbers.
fn by_ours(case: &Case) -> Option<Answer> {
    let mut all = vec![BEFORE; AROUND + case.size + AROUND];
    let mut numbers = [u64::MAX; 4];
    let lent = &mut all[AROUND..][..case.size];
    let status = samopute::encode(&case.words, &case.values, &case.text, lent, &mut numbers);
    let buffer = lent.to_vec();
    let [used, one, two, three] = numbers;
    let is_kept = |bytes: &[u8]| bytes.iter().all(|&byte| byte == BEFORE);
    let fault = answer::fault(status, [one, two, three]);
    let outcome = match (status, fault) {
        _ if !is_kept(&all[..AROUND]) || !is_kept(&all[AROUND + case.size..]) => {
            Outcome::Other("written outside".to_string())
        }
        (0, _) if [one, two, three] == [0; 3] => Outcome::Used(used as usize),
        (_, Some(fault)) if used == 0 => Outcome::Refused(fault),
        _ => Outcome::Other(format!("status {status}, answer {numbers:X?}")),
    };
    Some(Answer { outcome, buffer })
}
