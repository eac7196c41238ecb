//! words.txt: atoms with the tests for reserved words, identifiers and numerals.
use common::lists::Draft;
use common::prng::Prng;
use common::vocabulary::{NO_NAMES, ORDINARY_NAMES, RESERVED, name, numeral};

const ATOM_BYTES: &[u8] = b"ABCDEFGHIJKLMNOPQRSTUVWXYZabcdefghijklmnopqrstuvwxyz0123456789_-";
const KINDS: [char; 8] = ['a', 'z', 'A', 'Z', '0', '9', '_', '-'];

pub fn fill(draft: &mut Draft, prng: &mut Prng) {
    draft.source(b"");
    draft.sources(RESERVED);
    draft.sources(ORDINARY_NAMES);
    draft.sources(NO_NAMES);
    draft.sources(ATOM_BYTES.iter().map(|byte| [*byte]));
    draft.sources(RESERVED.iter().flat_map(|word| near_misses(word, prng)).collect::<Vec<_>>());
    draft.sources(["natelim", "nat--elim", "nat-unit", "unit-nat", "empty-unit", "emptyelim", "elim", "-elim"]);
    draft.sources(pairs());
    draft.sources(numerals(prng));
    draft.sources(long());
    draft.sources(random_atoms(prng, 100));
}

/// Atoms that a careless comparison takes for the word.
fn near_misses(word: &str, prng: &mut Prng) -> Vec<String> {
    let last = word.len() - 1;
    let mut atoms = vec![
        word.to_uppercase(),
        word[..1].to_uppercase() + &word[1..],
        word[..last].to_string() + &word[last..].to_uppercase(),
        word[1..].to_string(),
        word[..last].to_string(),
        word.replace('-', "_"),
        word.replace('-', ""),
        word.repeat(2),
        word.chars().rev().collect(),
    ];
    atoms.extend(["_", "-", "0", "s"].map(|more| format!("{word}{more}")));
    atoms.extend(["_", "-", "0", "s"].map(|more| format!("{more}{word}")));
    atoms.extend((0..word.len()).map(|at| replaced(word, at, *prng.pick(ATOM_BYTES))));
    // the same length and the same bytes at both ends
    let middle = (1..last).map(|at| replaced(word, at, b'x'));
    atoms.extend(middle);
    atoms
}

fn replaced(word: &str, at: usize, byte: u8) -> String {
    format!("{}{}{}", &word[..at], char::from(byte), &word[at + 1..])
}

fn pairs() -> Vec<String> {
    let two = KINDS.iter().flat_map(|first| KINDS.map(|second| format!("{first}{second}")));
    two.collect()
}

/// With and without a leading 0, and with one byte that is no digit.
fn numerals(prng: &mut Prng) -> Vec<String> {
    let mut atoms: Vec<String> = (0..=21).map(|value: usize| value.to_string()).collect();
    for digits in [2, 3, 5, 9, 10, 11, 19, 20, 21, 40, 200] {
        let good = numeral(prng, digits);
        let at = prng.below(digits);
        atoms.extend([format!("0{good}"), format!("{good}0"), format!("-{good}"), format!("{good}-")]);
        atoms.extend([replaced(&good, at, b'_'), replaced(&good, at, b'a'), replaced(&good, at, b'0'), good]);
    }
    atoms.extend(["00", "000", "4294967295", "4294967296", "18446744073709551616"].map(String::from));
    atoms
}

/// Atoms of 1,000 and 65,535 bytes that differ from a good one at an end.
fn long() -> Vec<String> {
    let mut atoms = Vec::new();
    for length in [1000, 65535] {
        for (byte, other) in [("a", "-"), ("_", "0"), ("1", "a"), ("0", "1"), ("9", "0")] {
            atoms.push(byte.repeat(length));
            atoms.push(byte.repeat(length - 1) + other);
            atoms.push(other.to_string() + &byte.repeat(length - 1));
        }
    }
    atoms
}

fn random_atoms(prng: &mut Prng, count: usize) -> Vec<String> {
    let mut atoms = Vec::new();
    for _ in 0..count {
        let length = prng.between(2, 12);
        atoms.push((0..length).map(|_| char::from(*prng.pick(ATOM_BYTES))).collect());
        atoms.push(name(prng, length));
    }
    atoms
}
