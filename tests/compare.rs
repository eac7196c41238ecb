//! Compares the Rattle library with the Rust on random sources: compare [COUNT [SEED]].
mod equality;
#[cfg(mock)]
mod faults;
#[cfg(mock)]
mod mock;
mod probe;

use answers::{token_at, token_line, utf8_line};
use common::damage::{damaged, damaged_text};
use common::modules::{Shape, generate};
use common::printing::{Layout, print};
use common::prng::Prng;
use common::tally::{Mismatch, Tally, differ};
use common::tokens;
use common::unicode::{CHARACTERS, MARK, nearly_utf8};
use common::vocabulary::{ORDINARY_NAMES, RESERVED, name, numeral};
use common::words;
use hott_kernel::ParserParts;
use std::process::ExitCode;

const DEFAULT_COUNT: usize = 200_000;
/// Up to this length a source is asked at every offset, else at so many random ones.
const EVERY_OFFSET: usize = 80;

fn main() -> ExitCode {
    let number = |at, default| std::env::args().nth(at).map_or(default, |text| text.parse().expect("a number"));
    let count = number(1, DEFAULT_COUNT);
    let mut prng = Prng::new(number(2, 2) as u64);
    let mut tally = Tally::default();
    for at in 0..count {
        match at % 4 {
            0 | 1 => {
                let source = token_source(&mut prng);
                tally.count(source.as_bytes(), compare_tokens(&source, &mut prng));
            }
            2 => {
                let source = utf8_source(&mut prng);
                tally.count(&source, compare_utf8(&source));
            }
            _ => {
                let word = word(&mut prng);
                tally.count(word.as_bytes(), compare_word(&word, &mut prng));
            }
        }
    }
    tally.finish()
}

/// UTF-8 of any kind: pieces, printed modules, damaged ones.
fn token_source(prng: &mut Prng) -> String {
    if prng.chance(70) {
        let length = prng.below(24);
        return (0..length).map(|_| piece(prng)).collect();
    }
    let shape = Shape { declarations: 2, depth: 4, size: 5, ..Shape::doubtful() };
    let layout = *prng.pick(&[Layout::Tight, Layout::Spaced, Layout::Wild]);
    let text = print(&generate(prng, &shape), layout, prng);
    let text = String::from_utf8(text).expect("printed text is UTF-8");
    if prng.chance(60) { damaged_text(&text, prng) } else { text }
}

fn piece(prng: &mut Prng) -> char {
    match prng.below(12) {
        0..=2 => *prng.pick(&['(', ')', ';', '\n']),
        3 => *prng.pick(&[' ', '\t', '\r', '\n']),
        4..=7 => *prng.pick(&['a', 'z', 'A', 'Z', '0', '9', '_', '-', 'x']),
        8 => *prng.pick(&CHARACTERS),
        9 | 10 => char::from(prng.between(32, 126) as u8),
        _ => char::from(prng.below(128) as u8),
    }
}

/// The stream from the start, and the token at offsets in the middle of tokens, comments and characters.
fn compare_tokens(source: &str, prng: &mut Prng) -> Option<Mismatch> {
    let bytes = source.as_bytes();
    let at_offset = |at: usize| {
        let (expected, found) = (token_at(source, at), probe::token_at(bytes, at));
        differ(&format!("token at {at}"), expected.to_string(), found.to_string())
    };
    let stream = differ("tokens", token_line(bytes), tokens::line(&probe::tokens(bytes)));
    stream.or_else(|| {
        if bytes.len() <= EVERY_OFFSET {
            (0..=bytes.len()).find_map(at_offset)
        } else {
            (0..EVERY_OFFSET).map(|_| prng.below(bytes.len() + 1)).find_map(at_offset)
        }
    })
}

fn utf8_source(prng: &mut Prng) -> Vec<u8> {
    let mut source = if prng.chance(15) { MARK.to_vec() } else { Vec::new() };
    let pieces = prng.below(10);
    source.extend(nearly_utf8(prng, pieces));
    if prng.chance(30) { damaged(&source, prng) } else { source }
}

fn compare_utf8(source: &[u8]) -> Option<Mismatch> {
    differ("UTF-8", utf8_line(source), probe::utf8_line(source))
}

/// Reserved words, names, numerals, and what one changed byte makes of them.
fn word(prng: &mut Prng) -> String {
    const ATOM_BYTES: &[u8] = b"abcdefghijklmnopqrstuvwxyzANZ0019_-";
    let length = prng.between(1, 40);
    let word = match prng.below(5) {
        0 | 1 => prng.pick(&RESERVED).to_string(),
        2 => prng.pick(&ORDINARY_NAMES).to_string(),
        3 if prng.chance(20) => format!("0{}", numeral(prng, length)),
        3 => numeral(prng, length),
        _ => name(prng, length),
    };
    if prng.chance(30) {
        return word;
    }
    let mut bytes = word.into_bytes();
    let at = prng.below(bytes.len());
    match prng.below(4) {
        0 => drop(bytes.remove(at)),
        1 => bytes.insert(at, *prng.pick(ATOM_BYTES)),
        2 => bytes[at] = *prng.pick(ATOM_BYTES),
        _ => bytes[at] ^= if bytes[at].is_ascii_alphabetic() { 32 } else { 0 },
    }
    String::from_utf8(bytes).expect("an atom is ASCII")
}

fn compare_word(word: &str, prng: &mut Prng) -> Option<Mismatch> {
    let (reserved, identifier) = (ParserParts::is_reserved(word), ParserParts::is_identifier(word));
    let numeral = ParserParts::is_natural(word);
    let expected = words::expected(word.as_bytes(), reserved, identifier, numeral);
    differ("word", expected, probe::word_line(word.as_bytes())).or_else(|| compare_equality(word.as_bytes(), prng))
}

/// The word and one that repeats it against copies, damaged ones, and ones of the same length with a few bytes changed.
fn compare_equality(word: &[u8], prng: &mut Prng) -> Option<Mismatch> {
    let long = word.repeat(prng.between(2, 9));
    let others = [
        word.to_vec(),
        damaged(word, prng),
        changed(word, prng),
        long.clone(),
        damaged(&long, prng),
        changed(&long, prng),
    ];
    others.iter().find_map(|other| equality::check(word, other).or_else(|| equality::check(&long, other)))
}

/// A copy with one to four bytes changed, the last one often among them.
fn changed(word: &[u8], prng: &mut Prng) -> Vec<u8> {
    let mut copy = word.to_vec();
    if let Some(last) = copy.last_mut().filter(|_| prng.chance(30)) {
        *last ^= 1;
    }
    for _ in 0..prng.below(4) {
        let at = prng.below(copy.len().max(1));
        copy.get_mut(at).into_iter().for_each(|byte| *byte ^= 1 << prng.below(8));
    }
    copy
}
