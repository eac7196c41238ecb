//! Replays the fixed lists on the Rattle library: replay [FOLDER], by default tests/lists.
mod equality;
#[cfg(mock)]
mod faults;
#[cfg(mock)]
mod mock;
mod probe;
mod readings;

use common::lists::{self, Line};
use common::tally::{Mismatch, Tally, differ};
use common::tokens;
use common::vocabulary::RESERVED;
use common::words;
use std::process::ExitCode;

type Check = fn(&Line) -> Option<Mismatch>;

fn main() -> ExitCode {
    let folder = std::env::args().nth(1).unwrap_or_else(|| String::from("tests/lists"));
    #[cfg(mock)]
    if folder == "--faults" {
        common::fault::TEXT.iter().for_each(|fault| println!("{fault}"));
        return ExitCode::SUCCESS;
    }
    let mut tally = Tally::default();
    let checks: [(&str, Check); 5] = [
        ("tokens", check_tokens),
        ("words", check_word),
        ("words", check_equality),
        ("utf8", check_utf8),
        ("answers", readings::check_answer),
    ];
    for (name, check) in checks {
        match lists::read(&format!("{folder}/{name}.txt")) {
            Ok(lines) if lines.is_empty() => tally.broken(&format!("{name}.txt has no lines")),
            Ok(lines) => lines.iter().for_each(|line| tally.count(&line.source, check(line))),
            Err(error) => tally.broken(&error),
        }
    }
    two_differences(&mut tally);
    every_bit(&mut tally);
    tally.finish()
}

/// Names of each length that differ at one place, at each two, or nowhere.
fn two_differences(tally: &mut Tally) {
    for length in 0..=40 {
        let name: Vec<u8> = (b'A'..).take(length).collect();
        tally.count(&name, equality::check(&name, &name.clone()));
        for first in 0..length {
            for second in first..length {
                let mut other = name.clone();
                (other[first], other[second]) = (b'_', b'_');
                tally.count(&name, equality::check(&name, &other));
            }
        }
    }
}

/// Names that differ in one bit of one byte, whatever the byte is.
fn every_bit(tally: &mut Tally) {
    for place in 0..20 {
        for byte in 0..=255 {
            let name: Vec<u8> = (0..20).map(|at| if at == place { byte } else { b'x' }).collect();
            let flipped = (0..8).map(|bit| {
                let mut other = name.clone();
                other[place] ^= 1 << bit;
                other
            });
            flipped.for_each(|other| tally.count(&name, equality::check(&name, &other)));
        }
    }
}

fn check_tokens(line: &Line) -> Option<Mismatch> {
    differ("tokens", line.answer.clone(), tokens::line(&probe::tokens(&line.source)))
}

fn check_word(line: &Line) -> Option<Mismatch> {
    let says = |test: &str| line.answer.split(' ').any(|part| part == test);
    let tests = ["reserved=1", "identifier=1", "numeral=1"].map(says);
    let expected = words::expected(&line.source, tests[0], tests[1], tests[2]);
    differ("word", expected, probe::word_line(&line.source))
}

fn check_utf8(line: &Line) -> Option<Mismatch> {
    differ("UTF-8", line.answer.clone(), probe::utf8_line(&line.source))
}

/// A word against its copy and against words that are nearly equal.
fn check_equality(line: &Line) -> Option<Mismatch> {
    let word = &line.source;
    let mut others = vec![word.clone(), [word, &b"a"[..]].concat(), [b"a", &word[..]].concat()];
    for at in [0, word.len() / 2, word.len().saturating_sub(1)] {
        let mut other = word.clone();
        other.splice(at..(at + 1).min(word.len()), *b"_");
        others.push(other);
        others.push(word[..at].to_vec());
    }
    others.extend(RESERVED.iter().map(|reserved| reserved.as_bytes().to_vec()));
    others.iter().find_map(|other| equality::check(word, other))
}
