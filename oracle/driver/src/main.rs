//! Runs the published Rust beside the library under test: see ../../README.md.
mod bench;
mod bytes_left;
mod carried;
mod case;
mod cases;
mod compare;
mod frames;
mod numbers;
mod oracle_types;
mod pair;
mod payload;
mod random;
mod readings;
mod report;
mod samopute;
mod sample;
mod sampled;
mod sides;
mod stand_ins;
mod tables;
mod tally;
mod timing;
mod writings;

use frames::rust::row;
use payload::run::{FULL, QUICK};
use readings::boundary::compare as boundary;
use readings::lines::{Side, answer_input};
use readings::program::Program;
use report::Report;
use std::process::ExitCode;
use writings::compare as writing;
use writings::lines as written;

const USAGE: &str = "usage: driver compare [--quick] | compare-numbers [--quick] \
                     | compare-tables [--quick] \
                     | compare-readings [--quick] [--program PATH] \
                     | compare-boundary [--quick | --count DECODES] \
                     | compare-writings [--quick | --count ENCODES] \
                     | sample --cases | sample --answers \
                     | sample-numbers --cases | sample-numbers --answers \
                     | sample-readings --cases | sample-readings --answers \
                     | sample-frames --cases | sample-frames --answers \
                     | million-frames | print-frames [--by-digits | --by-model] \
                     | answer-readings [--stand-ins | --rust] \
                     | answer-writings [--ours | --stand-ins | --rust] \
                     | bench | bench-tables | bench-readings [--payloads COUNT]";

fn main() -> ExitCode {
    let arguments: Vec<String> = std::env::args().skip(1).collect();
    let arguments: Vec<&str> = arguments.iter().map(String::as_str).collect();
    if let Some(print) = printer(&arguments) {
        print();
        return ExitCode::SUCCESS;
    }
    match compared(&arguments).or_else(|| answered(&arguments)) {
        Some(true) => ExitCode::SUCCESS,
        Some(false) => ExitCode::FAILURE,
        None => {
            eprintln!("{USAGE}");
            ExitCode::from(2)
        }
    }
}

/// What prints the same at every run, or times.
fn printer(arguments: &[&str]) -> Option<fn()> {
    Some(match arguments {
        ["sample", "--cases"] => sample::print_cases,
        ["sample", "--answers"] => sample::print_answers,
        ["sample-numbers", "--cases"] => numbers::sample::print_cases,
        ["sample-numbers", "--answers"] => numbers::sample::print_answers,
        ["sample-readings", "--cases"] => readings::sample::print_cases,
        ["sample-readings", "--answers"] => readings::sample::print_answers,
        ["sample-frames", "--cases"] => frames::print_cases,
        ["sample-frames", "--answers"] => frames::print_answers,
        ["bench"] => bench::run,
        ["bench-tables"] => tables::bench::run,
        ["bench-readings"] => || readings::bench::run(readings::bench::PAYLOADS),
        _ => return None,
    })
}

/// Runs a comparison. True if no test failed.
fn compared(arguments: &[&str]) -> Option<bool> {
    let mut all = Report::default();
    let report = &mut all;
    match *arguments {
        ["compare"] => compare_all(false, report),
        ["compare", "--quick"] => compare_all(true, report),
        ["compare-numbers"] => numbers::compare::run(false, report),
        ["compare-numbers", "--quick"] => numbers::compare::run(true, report),
        ["compare-tables"] => tables::compare::run(false, report),
        ["compare-tables", "--quick"] => tables::compare::run(true, report),
        ["compare-readings"] => compare_payloads(false, None, report),
        ["compare-readings", "--quick"] => compare_payloads(true, None, report),
        ["compare-readings", "--program", path] => compare_payloads(false, Some(path), report),
        ["compare-readings", "--quick", "--program", path]
        | ["compare-readings", "--program", path, "--quick"] => {
            compare_payloads(true, Some(path), report);
        }
        ["compare-boundary"] => boundary::run(FULL, report),
        ["compare-boundary", "--quick"] => boundary::run(QUICK, report),
        ["compare-boundary", "--count", count] => boundary::run(counted(count)?, report),
        ["compare-writings"] => writing::run(FULL, report),
        ["compare-writings", "--quick"] => writing::run(QUICK, report),
        ["compare-writings", "--count", count] => writing::run(counted(count)?, report),
        _ => return None,
    }
    Some(all.close())
}

/// Answers standard input, or prints frames. True if all could be read and printed.
fn answered(arguments: &[&str]) -> Option<bool> {
    Some(match *arguments {
        ["answer-readings"] => answer_input(Side::Model),
        ["answer-readings", "--stand-ins"] => answer_input(Side::Standin),
        ["answer-readings", "--rust"] => answer_input(Side::Rust),
        ["answer-writings"] => written::answer_input(written::Side::Model),
        ["answer-writings", "--ours"] => written::answer_input(written::Side::Ours),
        ["answer-writings", "--stand-ins"] => written::answer_input(written::Side::Standin),
        ["answer-writings", "--rust"] => written::answer_input(written::Side::Rust),
        ["million-frames"] => frames::million::print(),
        ["print-frames"] => frames::rust::print(row::formatted),
        ["print-frames", "--by-model"] => frames::print_by_model(),
        ["print-frames", "--by-digits"] => frames::rust::print(row::by_digits),
        ["bench-readings", "--payloads", count] => {
            readings::bench::run(counted(count)?);
            true
        }
        _ => return None,
    })
}

/// A number from 1 on.
fn counted(argument: &str) -> Option<usize> {
    argument.parse().ok().filter(|&count| count > 0)
}

fn compare_all(quick: bool, report: &mut Report) {
    compare::run(quick, report);
    numbers::compare::run(quick, report);
    stand_ins::run(report);
    tables::compare::run(quick, report);
    compare_payloads(quick, None, report);
    writing::run(if quick { QUICK } else { FULL }, report);
}

/// Reading payloads by the program, which is looked for where `rt` puts it if no path is given, then through
/// the interface.
fn compare_payloads(quick: bool, path: Option<&str>, report: &mut Report) {
    readings::compare::run(quick, &Program::find(path), report);
    boundary::run(if quick { QUICK } else { FULL }, report);
    frames::by_hand::run(report);
}
