//! The program under test, fed through pipes.
use super::case::Case;
use std::io::{Read, Write};
use std::path::{Path, PathBuf};
use std::process::{Command, Stdio};
use std::thread;

/// How many lines are tried one by one where a run of many goes wrong.
const TRIED: usize = 1000;

/// How much of such a run is shown.
const SHOWN: usize = 200;

pub struct Program(PathBuf);

/// What a run printed, and what went wrong with it.
struct Run {
    answers: Vec<String>,
    fault: Option<String>,
}

impl Program {
    /// The program at a path, or where `rt` puts it; else how it is built.
    pub fn find(path: Option<&str>) -> Result<Program, String> {
        let built = "crates/readcalls/out/readcalls";
        let root = Path::new(env!("CARGO_MANIFEST_DIR")).join("../..");
        let place = path.map_or(root.join(built), PathBuf::from);
        if place.is_file() {
            return Ok(Program(place));
        }
        Err(format!(
            "{} is missing: run `rt run </dev/null` in crates/readcalls first",
            path.unwrap_or(built)
        ))
    }

    /// The answers to cases.
    pub fn answers_to<'a>(
        &self,
        cases: impl Iterator<Item = &'a Case>,
    ) -> Result<Vec<String>, String> {
        let lines: Vec<String> = cases.map(Case::line).collect();
        self.answers(&lines)
    }

    /// The answers to lines, one for each.
    pub fn answers(&self, lines: &[String]) -> Result<Vec<String>, String> {
        let run = self.run(lines)?;
        if run.is_whole(lines.len()) {
            return Ok(run.answers);
        }
        let mut text = format!("{} lines have {} answers", lines.len(), run.answers.len());
        text.extend(run.fault.map(|fault| format!(", {fault}")));
        let after = lines.iter().skip(run.answers.len().saturating_sub(1));
        for line in after.take(TRIED) {
            let alone = self.run(std::slice::from_ref(line))?;
            if !alone.is_whole(1) {
                return Err(format!("{text}, such as this one by itself\n  {line}"));
            }
        }
        let first: String = run.answers.concat().chars().take(SHOWN).collect();
        Err(format!("{text}, which begin\n  {first}"))
    }

    /// The program is for x86-64: on another processor build.rs names what runs it there.
    fn command(&self) -> Command {
        let Some(runs) = option_env!("SAMOPUTE_RUN") else {
            return Command::new(&self.0);
        };
        let mut command = Command::new("sh");
        command.arg(runs).arg(&self.0);
        command
    }

    /// A thread writes while this one reads, so that neither pipe can stop the other.
    fn run(&self, lines: &[String]) -> Result<Run, String> {
        let failed = |error| format!("{} cannot be run: {error}", self.0.display());
        let mut child = self
            .command()
            .stdin(Stdio::piped())
            .stdout(Stdio::piped())
            .spawn()
            .map_err(failed)?;
        let mut input = child.stdin.take().expect("stdin is piped");
        let mut output = child.stdout.take().expect("stdout is piped");
        let lines: String = lines.iter().flat_map(|line| [line, "\n"]).collect();
        let writer = thread::spawn(move || input.write_all(lines.as_bytes()));
        let mut text = Vec::new();
        output.read_to_end(&mut text).map_err(failed)?;
        let status = child.wait().map_err(failed)?;
        // A program that ends early breaks the pipe: its answers and its status tell more.
        let _ = writer.join().expect("the writer does not panic");
        Ok(Run {
            answers: grouped(&String::from_utf8_lossy(&text)),
            fault: (!status.success()).then(|| format!("it ended with {status}")),
        })
    }
}

impl Run {
    fn is_whole(&self, lines: usize) -> bool {
        self.fault.is_none() && self.answers.len() == lines
    }
}

/// The lines of each answer: up to its `D` line, or `F 14` alone.
fn grouped(text: &str) -> Vec<String> {
    let mut answers = Vec::new();
    let mut open = String::new();
    for line in text.split_inclusive('\n') {
        let alone = open.is_empty() && line.trim_end() == "F 14";
        open += line;
        if alone || line.starts_with("D ") {
            answers.push(std::mem::take(&mut open));
        }
    }
    if !open.is_empty() {
        answers.push(open);
    }
    answers
}
