//! Replays answers.txt through loading: with tables of the sizes that a source needs the answer is the list's, and
//! with tables of every size around them it is document 01's.
use super::check::loaded;
use super::expected::Reference;
use super::listing::lines;
use super::sizes::{around, exact};
use super::tables::Rubbish;
use common::lists::{self, Line};
use common::tally::{Tally, differ};
use std::process::ExitCode;

/// Lines are taken in steps, so that a mistake of any sort is met soon.
const STEP: usize = 16;

pub fn run(folder: &str) -> ExitCode {
    let mut tally = Tally::default();
    match lists::read(&format!("{folder}/answers.txt")) {
        Ok(lines) if lines.is_empty() => tally.broken("answers.txt has no lines"),
        Ok(lines) => {
            let order = (0..STEP).flat_map(|first| (first..lines.len()).step_by(STEP));
            for number in order {
                replay(&lines[number], number, &mut tally);
                if tally.is_hopeless() {
                    break;
                }
            }
        }
        Err(error) => tally.broken(&error),
    }
    tally.finish()
}

fn replay(line: &Line, number: usize, tally: &mut Tally) {
    let reference = Reference::new(&line.source);
    check_answer(&reference, &line.answer, tally);
    for (at, sizes) in around(reference.need()).into_iter().enumerate() {
        let rubbish = Rubbish::ALL[(number + at) % Rubbish::ALL.len()];
        loaded(&reference, sizes, rubbish, tally);
    }
}

/// The list has the Rust's answer. It is document 01's too, but for 6 and 7, where tables suffice.
fn check_answer(reference: &Reference, answer: &str, tally: &mut Tally) {
    let sizes = exact(reference.need());
    let expected = match reference.expected(sizes) {
        Err(refusal) if refusal.class > 5 => refusal.to_string(),
        _ => answer.to_string(),
    };
    if let Some(loaded) = loaded(reference, sizes, Rubbish::Small, tally) {
        let listing = lines(reference.source, &loaded).join("|");
        tally.count(reference.source, differ("listing", expected, listing));
    }
}
