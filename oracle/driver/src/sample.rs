//! The sample: a fixed list of cases and the Rust's answers, to be replayed without Rust.
use crate::case::{Answer, Call, Case, Size, hex};
use crate::cases::any_case;
use crate::sampled::Sampled;
use crate::sides;

/// Random cases of each call.
const EACH: usize = 230;

/// The longest buffer, in bytes.
const LONGEST: usize = 40;

pub fn print_cases() {
    for (case, _) in sample() {
        println!("{}", case.line());
    }
}

pub fn print_answers() {
    for (case, told) in sample() {
        println!("{}", answer_line(&case, &told));
    }
}

/// The Rust's answer, and its buffer after the call.
type Told = (Answer, Vec<u8>);

fn sample() -> Vec<(Case, Told)> {
    let mut sample = Sampled::new(Case::line);
    for case in papers() {
        let told = ask(&case).expect("the Rust answers the paper's cases");
        sample.take(case, told);
    }
    for call in Call::ALL {
        for (outcome, share) in shares(call) {
            sample.draw(share, |random| {
                let length = random.up_to(LONGEST);
                let case = any_case(call, length, random);
                let told = ask(&case)?;
                let fits = told.0.raw().number == outcome && case.source.len() <= LONGEST + 3;
                fits.then_some((case, told))
            });
        }
    }
    sample.taken
}

/// How many cases of a call end in each outcome: half are accepted, the refusals share the rest.
fn shares(call: Call) -> Vec<(u32, usize)> {
    let refusals = call.refusals();
    if refusals.is_empty() {
        return vec![(0, EACH)];
    }
    let each = EACH / 2 / refusals.len();
    let mut shares = vec![(0, EACH - each * refusals.len())];
    shares.extend(refusals.iter().map(|&number| (number, each)));
    shares
}

/// The cases of bit calls that document 01 gives.
fn papers() -> [Case; 4] {
    let case = |call, buffer: &[u8], cursor, count, value| Case {
        buffer: buffer.to_vec(),
        cursor,
        count,
        value,
        ..Case::new(call)
    };
    [
        case(Call::Read(Size::U64), &[0xF0, 0x1F], 4, 9, 0),
        case(Call::ReadSlice, &[0xF0, 0x1F], 16, 0, 0),
        case(Call::ReadSlice, &[0xF0, 0x1F], 24, 0, 0),
        case(Call::Write(Size::U64), &[0x00, 0x00], 6, 3, 13),
    ]
}

fn ask(case: &Case) -> Option<Told> {
    let mut buffer = case.buffer.clone();
    let answer = sides::rust(case, &mut buffer)?;
    Some((answer, buffer))
}

/// `ok CURSOR ...` or `F NUMBER CARRIED...`, and the buffer after a write.
fn answer_line(case: &Case, (answer, after): &Told) -> String {
    let mut line = match answer.outcome {
        Ok(values) => format!("ok {}{}", answer.cursor, accepted(case, values)),
        Err(refusal) => {
            let carried = refusal.carried();
            let carried: String = carried.iter().map(|value| format!(" {value}")).collect();
            format!("F {}{carried}", refusal.number())
        }
    };
    if case.call.writes() {
        line += &format!(" | {}", hex(after));
    }
    line
}

/// What follows the cursor of an accepted call.
fn accepted(case: &Case, [first, second]: [u64; 2]) -> String {
    match case.call {
        Call::Read(_) => format!(" {first:X}"),
        Call::ReadSlice => {
            let start = first as usize;
            format!(" {}", hex(&case.buffer[start..start + second as usize]))
        }
        Call::BitsRemaining => format!(" {first}"),
        _ => String::new(),
    }
}
