//! Replays answers.txt on the program that prints the listing: every source on its standard input.
use super::expected::Reference;
use super::tables::LISTING;
use common::lists::{self, Line};
use common::tally::{Mismatch, Tally, differ};
use std::io::{Read, Write};
use std::process::{Command, ExitCode, Stdio};

/// Every so many lines of the list are tried.
pub fn run(every: usize, program: &[String]) -> ExitCode {
    let mut tally = Tally::default();
    match lists::read("tests/lists/answers.txt") {
        Ok(lines) => {
            for line in lines.iter().step_by(every) {
                tally.count(&line.source, check(line, program));
                if tally.is_hopeless() {
                    break;
                }
            }
        }
        Err(error) => tally.broken(&error),
    }
    tally.finish()
}

/// The list's answer, but for the limits: there the line is document 01's.
fn check(line: &Line, program: &[String]) -> Option<Mismatch> {
    let expected = match Reference::new(&line.source).expected(LISTING) {
        Err(refusal) if refusal.class > 5 => refusal.to_string(),
        _ => line.answer.replace('|', "\n"),
    };
    let found = printed(&line.source, program).unwrap_or_else(|error| error.to_string());
    differ("listing", format!("{expected}\n"), found)
}

/// What the program prints, whatever its status.
fn printed(source: &[u8], program: &[String]) -> std::io::Result<String> {
    let (first, words) = program.split_first().expect("a program");
    let mut child = Command::new(first).args(words).stdin(Stdio::piped()).stdout(Stdio::piped()).spawn()?;
    let mut input = child.stdin.take().expect("a pipe");
    // it may end before it has read all
    let _ = input.write_all(source);
    drop(input);
    let mut text = String::new();
    child.stdout.take().expect("a pipe").read_to_string(&mut text)?;
    child.wait()?;
    Ok(text)
}
