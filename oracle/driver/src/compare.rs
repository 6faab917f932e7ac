//! The comparison of bit calls. Each test is one call of one side against another, over one set of cases.
use crate::case::{Call, Case, Raw, hex};
use crate::cases::{SEED, any_case, any_length, exhaustive};
use crate::pair::Pair;
use crate::random::Random;
use crate::report::Report;
use crate::tally::{Printed, Tally};
use crate::{carried, sides};

/// Random cases of each call.
const QUICK: usize = 400_000;
const FULL: usize = 4_000_000;

/// The longest buffer that a failure prints whole, in bytes.
const PRINTED: usize = 300;

/// The number of refusal 6, which only the random cases have buffers for.
const TOO_LONG: u32 = 6;

/// Runs every test on bit calls.
pub fn run(quick: bool, report: &mut Report) {
    let count = if quick { QUICK } else { FULL };
    println!(
        "seed {SEED:#018X}, {} random cases",
        count * Call::ALL.len()
    );
    let mut random = Random::new(SEED);
    report.line(
        "carried-over files against SHA256SUMS",
        carried::hashes_agree(),
    );
    report.line("SHA256SUMS against the folder", carried::list_is_complete());
    for call in Call::ALL {
        let mut trio = Trio::new(call, "exhaustive", false);
        exhaustive(call, &mut |case| trio.compare(case));
        trio.report(report);

        let mut trio = Trio::new(call, "random", true);
        for _ in 0..count {
            let length = any_length(&mut random);
            trio.compare(&any_case(call, length, &mut random));
        }
        trio.report(report);
    }
}

/// The three sides held against each other over the same cases.
struct Trio {
    ours_rust: Test,
    ours_model: Test,
    model_rust: Test,
    /// A buffer for each side: ours, the model's, the Rust's.
    buffers: [Vec<u8>; 3],
}

type Test = Tally<Printed<[usize; 3]>>;

impl Trio {
    fn new(call: Call, set: &str, long: bool) -> Trio {
        let test = |pair: Pair| {
            let is_long = long && pair == Pair::OursModel && call != Call::BitsRemaining;
            let refusals = call.refusals().iter().copied();
            let wanted = [0].into_iter().chain(refusals);
            let name = format!("{}, {set}", pair.name(call.name()));
            Test::numbered(name, wanted.chain(is_long.then_some(TOO_LONG)))
        };
        Trio {
            ours_rust: test(Pair::OursRust),
            ours_model: test(Pair::OursModel),
            model_rust: test(Pair::ModelRust),
            buffers: Default::default(),
        }
    }

    fn compare(&mut self, case: &Case) {
        for buffer in &mut self.buffers {
            buffer.clone_from(&case.buffer);
        }
        let [ours, model, rust] = &mut self.buffers;
        let from_ours = sides::ours(case, ours);
        let from_model = sides::model(case, model);
        let ours = Side("ours", from_ours, ours);
        let model = Side("model", from_model, model);
        compare(&mut self.ours_model, case, &ours, &model);
        if let Some(answer) = sides::rust(case, rust) {
            let rust = Side("Rust", answer.raw(), rust);
            compare(&mut self.ours_rust, case, &ours, &rust);
            compare(&mut self.model_rust, case, &model, &rust);
        }
    }

    fn report(self, report: &mut Report) {
        for test in [self.ours_rust, self.ours_model, self.model_rust] {
            test.report(report);
        }
    }
}

/// A side's name, its answer, and its buffer after the call.
struct Side<'a>(&'static str, Raw, &'a [u8]);

/// The second side is the one that the first is held against.
fn compare(test: &mut Test, case: &Case, side: &Side, against: &Side) {
    test.meet(against.1.number as usize);
    if side.1 != against.1 || side.2 != against.2 {
        let size = [case.buffer.len(), case.cursor, case.count];
        (test.differing).add_printed(size, || difference(case, side, against));
    }
}

/// The case in the form of the sample, and both answers.
fn difference(case: &Case, side: &Side, against: &Side) -> String {
    let mut text = String::new();
    if case.buffer.len() <= PRINTED && case.source.len() <= PRINTED {
        text += &format!("\n  {}", case.line());
    } else {
        text += &format!(
            "\n  {} cursor {} count {} value {:X}, buffer of {} bytes {}, source of {} bytes {}",
            case.call.name(),
            case.cursor,
            case.count,
            case.value,
            case.buffer.len(),
            around(&case.buffer, case.cursor / 8),
            case.source.len(),
            around(&case.source, 0),
        );
    }
    let byte = (side.2.iter().zip(against.2)).position(|(a, b)| a != b);
    for Side(name, raw, buffer) in [side, against] {
        let [cursor, first, second] = raw.values;
        text += &format!(
            "\n  {name}: number {}, cursor {cursor}, values {first} {second}",
            raw.number
        );
        if let Some(byte) = byte {
            text += &format!(", buffer after {}", around(buffer, byte));
        }
    }
    text
}

/// The bytes of a buffer, or those near a place if it is long.
fn around(buffer: &[u8], place: usize) -> String {
    if buffer.len() <= PRINTED {
        return hex(buffer);
    }
    let start = place.saturating_sub(10).min(buffer.len() - 20);
    format!("(from byte {start}) {}", hex(&buffer[start..start + 20]))
}
