//! The comparison on numbers. Each test is one side against another, over every case of one call on
//! fields of one kind: fields that the table rules allow, of all sides; any fields, of ours and the model.
use super::any_fields::{self, Calls};
use super::case::{Answer, Call, Case, kind_name, outcome_name, refused};
use super::cases::{Amount, KINDS, fields, raws};
use super::differences::{Reason, reason};
use super::oracles;
use super::sides::{self, Asked};
use super::value_kinds::value_code;
use super::values::values;
use crate::cases::SEED;
use crate::pair::Pair;
use crate::random::Random;
use crate::report::Report;
use crate::tally::{Differing, LeftOut, Printed, Tally};
use model::numbers::{self, Field, Kind, ValueKind};
use model::tables::kind_of;

const QUICK: Amount = Amount {
    resolutions: 6,
    inputs: 3,
};
const FULL: Amount = Amount {
    resolutions: 50,
    inputs: 20,
};

/// Runs every test on numbers.
pub fn run(quick: bool, report: &mut Report) {
    let amount = if quick { QUICK } else { FULL };
    let mut random = Random::new(SEED);
    let mut left_out = LeftOut::default();
    report.line("sign_extend against the model", sign_extend(&mut random));
    report.line("counters of the Rust against the model", counters());
    for kind in KINDS {
        compare_kind(kind, amount, &mut random, &mut left_out, report);
    }
    left_out.report("left out with the Rust", report, |_, (_, text)| {
        text.clone()
    });
    for code in any_fields::codes() {
        compare_any(code, amount, &mut random, report);
    }
}

/// Any fields of a kind, by its code.
fn compare_any(code: u32, amount: Amount, random: &mut Random, report: &mut Report) {
    let kind = kind_of(code as usize);
    let name = kind_name(code);
    let test = |call: &str, wanted| {
        let asked = format!("{call} any field of kind {name}");
        test(Pair::OursModel.name(&asked), wanted)
    };
    let mut scale = test("scale", with_refusals(kind, any_value_kinds(kind)));
    let mut raw = test("raw", with_refusals(kind, outcomes(kind)));
    for passed in any_fields::fields(code, amount, random) {
        let Calls { raws, values } = any_fields::calls(&passed, amount, random);
        for (calls, test) in [(raws, &mut scale), (values, &mut raw)] {
            for call in calls {
                let case = Case::passed(passed, call);
                if let Some(ours) = sides::ours(&case) {
                    compare(test, &case, ours, sides::model(&case));
                }
            }
        }
    }
    for test in [scale, raw] {
        test.report(report);
    }
}

/// The kinds of value that the raws of any field have: a Date of a few bits has one that no accepted table
/// gives.
fn any_value_kinds(kind: Kind) -> Vec<usize> {
    let mut all = value_kinds(kind);
    if matches!(kind, Kind::Date | Kind::Mmsi) {
        all.extend(value_codes(&[ValueKind::U64, ValueKind::U8]));
    }
    all
}

/// The outcomes of any field: those of its kind, and the refusals of a kind without a number and of a width.
fn with_refusals(kind: Kind, mut all: Vec<usize>) -> Vec<usize> {
    let (other, width) = (refused(11), refused(1));
    if !KINDS.contains(&kind) {
        return vec![other];
    }
    all.push(width);
    if kind == Kind::Binary {
        all.push(other);
    }
    all.sort_unstable();
    all.dedup();
    all
}

fn compare_kind(
    kind: Kind,
    amount: Amount,
    random: &mut Random,
    left_out: &mut LeftOut<Reason, Kept>,
    report: &mut Report,
) {
    let mut scale = Sides::new("scale", kind, value_kinds(kind));
    let mut raw = Sides::new("raw", kind, outcomes(kind));
    for field in fields(kind, amount, random) {
        let asked = Asked::new(&field);
        for number in raws(&field, amount, random) {
            let case = Case::new(field, Call::Scale(number));
            scale.compare(&case, &asked, left_out);
        }
        for value in values(&field, amount, random) {
            let case = Case::new(field, Call::RawOf(value));
            raw.compare(&case, &asked, left_out);
        }
    }
    scale.report(report);
    raw.report(report);
}

/// The kinds of value that the raws of a kind of field have.
fn value_kinds(kind: Kind) -> Vec<usize> {
    use ValueKind::*;
    let kinds: &[ValueKind] = match kind {
        Kind::Float => &[F32],
        Kind::BitLookup | Kind::Binary => &[U64, U32, U16, U8],
        Kind::Date | Kind::Mmsi => &[U32, U16, F64, F32],
        Kind::Time => &[U64, F64],
        Kind::Duration => &[U64, U32, U16, F64, F32],
        _ => &[U64, U32, U16, U8, I64, I32, I16, I8, F64, F32],
    };
    value_codes(kinds)
}

fn value_codes(kinds: &[ValueKind]) -> Vec<usize> {
    kinds
        .iter()
        .map(|&kind| value_code(kind) as usize)
        .collect()
}

/// The outcomes of a value for a kind of field. Every f32 is in a Float's range.
fn outcomes(kind: Kind) -> Vec<usize> {
    match kind {
        Kind::Float => vec![0, refused(11)],
        _ => vec![0, refused(10), refused(11)],
    }
}

/// The sides held against each other over the same cases.
struct Sides([(Pair, Test); 5]);

type Test = Tally<Kept>;

/// What is kept of the smallest differing case.
type Kept = Printed<[u64; 5]>;

/// In the order in which they are reported.
const PAIRS: [Pair; 5] = [
    Pair::OursStandin,
    Pair::OursModel,
    Pair::OursRust,
    Pair::ModelStandin,
    Pair::ModelRust,
];

impl Sides {
    fn new(call: &str, kind: Kind, wanted: Vec<usize>) -> Sides {
        let asked = format!("{call} {kind:?}");
        let test = |pair: Pair| test(pair.name(&asked), wanted.clone());
        Sides(PAIRS.map(|pair| (pair, test(pair))))
    }

    /// A case that is left out with the Rust is not compared with it.
    fn compare(&mut self, case: &Case, asked: &Asked, left_out: &mut LeftOut<Reason, Kept>) {
        let model = sides::model(case);
        let standin = asked.standin(case);
        let rust = asked.rust(case, model.values[3]);
        let ours = sides::ours(case);
        let reason = reason(case);
        if let Some(reason) = reason {
            count(left_out.of(reason), case, rust, model);
        }
        for (pair, test) in &mut self.0 {
            let side = if pair.is_ours() { ours } else { Some(model) };
            let against = match pair {
                Pair::OursModel => Some(model),
                Pair::OursStandin | Pair::ModelStandin => Some(standin),
                Pair::OursRust | Pair::ModelRust => reason.is_none().then_some(rust),
            };
            if let (Some(side), Some(against)) = (side, against) {
                compare(test, case, side, against);
            }
        }
    }

    fn report(self, report: &mut Report) {
        for (_, test) in self.0 {
            test.report(report);
        }
    }
}

fn test(name: String, wanted: Vec<usize>) -> Test {
    Tally::new(name, wanted, outcome_name)
}

/// The second side is the one that the first is held against.
fn compare(test: &mut Test, case: &Case, side: Answer, against: Answer) {
    test.meet(against.outcome(case));
    if side != against {
        (test.differing).add_printed(case.size(), || difference(case, side, against));
    }
}

fn count(left_out: &mut Differing<Kept>, case: &Case, rust: Answer, model: Answer) {
    left_out.met += 1;
    if rust != model {
        left_out.add_printed(case.size(), || {
            let (there, here) = (rust.line(case), model.line(case));
            format!(" {}: {there} there, {here} here", case.line())
        });
    }
}

/// The case in the form of the sample, and both answers, with all numbers of each.
fn difference(case: &Case, side: Answer, against: Answer) -> String {
    format!(
        "\n  {}\n  {}, {side:?}\n  {}, {against:?} is wanted",
        case.line(),
        side.line(case),
        against.line(case),
    )
}

/// The Rust's private function, at every width.
fn sign_extend(random: &mut Random) -> Result<String, String> {
    const EACH: usize = 1000;
    for width in 1..=64 {
        let edges = [0, 1, 1 << (width - 1), (1 << (width - 1)) - 1, u64::MAX];
        let any = (0..EACH).map(|_| random.next());
        for raw in edges.into_iter().chain(any) {
            let raw = raw & (u64::MAX >> (64 - width));
            let (rust, model) = (
                oracles::standin::sign_extend(raw, width),
                numbers::meant(raw, width, true),
            );
            if i128::from(rust) != model {
                return Err(format!("{raw:X} of {width} bits is {rust}, not {model}"));
            }
        }
    }
    Ok(format!("{} cases", 64 * (EACH + 5)))
}

/// The elements that the Rust, unchanged, reads after a counter, as far as the payload goes.
fn counters() -> Result<String, String> {
    const PAYLOAD: usize = 300;
    let number = |width| Field {
        kind: Kind::Number,
        width,
        signed: false,
        scale: None,
    };
    let mut cases = 0;
    for width in 1..=32 {
        let all_ones = u64::MAX >> (64 - width);
        let fits = (PAYLOAD * 8 - width as usize) / 8;
        for raw in (0..=PAYLOAD as u64 + 1).chain([all_ones - 1, all_ones]) {
            let mut payload = [0; PAYLOAD];
            payload[..8].copy_from_slice(&(raw & all_ones).to_le_bytes());
            let rust = oracles::rust::read_elements(&number(width), &number(8), &payload);
            let model = numbers::elements(width, raw & all_ones).min(fits as u64);
            if rust != model {
                return Err(format!("{raw:X} of {width} bits is {rust}, not {model}"));
            }
            cases += 1;
        }
    }
    Ok(format!("{cases} cases"))
}
