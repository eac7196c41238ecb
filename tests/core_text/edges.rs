//! Random core texts at the edges: of version, encoding, length and open frames, with comments, with something behind
//! the end, and with one token changed.
use super::layout::{Layout, join};
use super::strings::wrong_name;
use super::texts::{HEAD, HEAD_TOKENS, tokens, words, written};
use crate::loading::generated::deep;
use common::modules::{Module, Shape, generate};
use common::printing::comment;
use common::prng::Prng;
use common::unicode::{FAULTS, MARK};
use common::vocabulary::{FORMS, LEAVES, RESERVED, numeral};

pub fn text(prng: &mut Prng) -> Vec<u8> {
    match prng.below(32) {
        0 | 1 => written(&deep(prng), prng),
        2..=5 => open_frames(prng),
        6..=10 => other_version(prng),
        11 | 12 => marked(prng),
        13..=15 => broken(prng),
        16 | 17 => commented(prng),
        18..=20 => behind_the_end(prng),
        21 => long(prng),
        _ => changed_token(prng),
    }
}

fn small(prng: &mut Prng) -> Module {
    generate(prng, &Shape::accepted())
}

/// About 512 open frames, and then a fragment and nothing more.
fn open_frames(prng: &mut Prng) -> Vec<u8> {
    const FRAGMENTS: [&str; 18] = [
        "",
        "(",
        "(bogus",
        "(fst",
        "(fst\u{e9}",
        "(fst \u{e9}",
        "(pi \0",
        "(j \"",
        "(succ )",
        "(ann \"\\",
        "(pi",
        "(pi\"x\"",
        "(lam nat",
        "(var 0",
        "(var 0)",
        "nat",
        "(universe 00)",
        ")",
    ];
    let frames = *prng.pick(&[3, 511, 512, 512, 512, 513]);
    let mut text = format!("{HEAD} (postulate \"a\" ");
    for _ in 0..frames {
        let form = prng.pick(&FORMS);
        let inner = prng.below(form.arity);
        text.push_str(&format!("({} {}", form.word, "nat ".repeat(inner)));
    }
    text.push_str(prng.pick::<&str>(&FRAGMENTS));
    text.into_bytes()
}

/// Another word in one or more of the five places of the version, and perhaps a fault before or behind the theory's
/// parenthesis.
fn other_version(prng: &mut Prng) -> Vec<u8> {
    const PLACES: [usize; 5] = [4, 5, 9, 10, 11];
    let mut head = words(&HEAD_TOKENS);
    for _ in 0..prng.between(1, 2) {
        let place = *prng.pick(&PLACES);
        head[place] = match prng.below(6) {
            0 => wrong_name(prng),
            1 => prng.pick(&["00", "01", "-1", "+1", "1a", "0x1", "\"0\"", "nat"]).to_string(),
            _ if place == 9 => prng.pick(&["\"x\"", "\"mltt-cor\"", "\"Mltt-core\"", "\"mltt-core \""]).to_string(),
            2 => numeral(prng, 30),
            _ => prng.pick(&["0", "1", "2", "10", "01"]).to_string(),
        };
    }
    match prng.below(8) {
        0 => head.truncate(prng.between(9, 14)),
        1 => head[12] = String::from("nat"),
        2 => head[13] = String::from(")"),
        3 => head.insert(12, String::from("1")),
        _ => head.extend(words(&[")", ")"])),
    }
    let layout = *prng.pick(&Layout::ALL);
    join(&head, layout, prng)
}

/// The mark, or a part of it, before a text.
fn marked(prng: &mut Prng) -> Vec<u8> {
    let part = prng.between(1, 3);
    let mut text = MARK[..part].to_vec();
    text.extend(written(&small(prng), prng));
    if prng.chance(30) {
        text.push(0xff);
    }
    text
}

/// A sequence that is not UTF-8 anywhere in a text, or behind its end.
fn broken(prng: &mut Prng) -> Vec<u8> {
    let mut text = written(&small(prng), prng);
    let at = if prng.chance(20) { text.len() } else { prng.below(text.len() + 1) };
    text.splice(at..at, prng.pick(&FAULTS).iter().copied());
    text
}

/// There are no comments in core text.
fn commented(prng: &mut Prng) -> Vec<u8> {
    let mut tokens = tokens(&small(prng), prng);
    let at = prng.below(tokens.len() + 1);
    let comment = String::from_utf8(comment(prng)).expect("a comment is UTF-8");
    tokens.insert(at, format!("{comment}\n"));
    join(&tokens, *prng.pick(&Layout::ALL), prng)
}

/// Something behind the last parenthesis, or no such parenthesis.
fn behind_the_end(prng: &mut Prng) -> Vec<u8> {
    let mut tokens = tokens(&small(prng), prng);
    match prng.below(3) {
        0 => drop(tokens.pop()),
        1 => tokens.extend(words(&[prng.pick::<&str>(&["(", ")", "nat", "\"a\"", "\"", ";", "0", "\u{85}", "\0"])])),
        _ => tokens.extend(tokens.clone()),
    }
    join(&tokens, *prng.pick(&Layout::ALL), prng)
}

/// Over 65,535 bytes, which is no limit here: by layout, a name or a numeral; and perhaps a fault at its end.
fn long(prng: &mut Prng) -> Vec<u8> {
    let mut tokens = tokens(&small(prng), prng);
    let length = prng.between(65_400, 66_000);
    let declaration = match prng.below(3) {
        0 => ["(", "postulate", &format!("\"{}\"", "n".repeat(length)), "nat", ")"].map(str::to_string),
        1 => ["(", "postulate", "\"n\"", &format!("(universe {})", numeral(prng, length)), ")"].map(str::to_string),
        _ => ["(", "postulate", "\"n\"", &format!("{}nat", " ".repeat(length)), ")"].map(str::to_string),
    };
    tokens.splice(HEAD_TOKENS.len()..HEAD_TOKENS.len(), declaration);
    if prng.chance(40) {
        let at = tokens.len() - prng.between(1, 3);
        tokens[at] = String::from("nat;x");
    }
    join(&tokens, *prng.pick(&Layout::ALL), prng)
}

/// A text in which one token is another, is missing or stands twice.
fn changed_token(prng: &mut Prng) -> Vec<u8> {
    let mut tokens = tokens(&small(prng), prng);
    // a tag of sources in 0 2, and of no core text
    if let Some(pi) = tokens.iter().position(|token| token == "pi").filter(|_| prng.chance(20)) {
        tokens[pi] = String::from("arrow");
        return join(&tokens, *prng.pick(&Layout::ALL), prng);
    }
    let is_word = |at: &usize| !["(", ")"].contains(&tokens[*at].as_str());
    let words: Vec<usize> = (0..tokens.len()).filter(is_word).collect();
    let at = if prng.chance(60) { *prng.pick(&words) } else { prng.below(tokens.len()) };
    let other = another_token(prng);
    match prng.below(6) {
        0 => drop(tokens.remove(at)),
        1 => tokens.insert(at, other),
        2 if tokens[at] == "(" => tokens[at] = String::from("["),
        3 => tokens[at].push_str(prng.pick::<&str>(&[";", ";x", "x", "-", "0", "\\", "\u{a0}", "\x7f"])),
        _ => tokens[at] = other,
    }
    join(&tokens, *prng.pick(&Layout::ALL), prng)
}

fn another_token(prng: &mut Prng) -> String {
    const OTHERS: [&str; 30] = [
        "(",
        ")",
        "\"x\"",
        "\"mltt-core\"",
        "\"",
        "nat;x",
        ";",
        ";x",
        "var",
        "global",
        "0",
        "1",
        "00",
        "07",
        "-1",
        "1a",
        "declarations",
        "hott-core",
        "hott-semantic",
        "format",
        "theory",
        "\\",
        "]",
        "\u{e9}",
        "\u{85}",
        "\0",
        "\x7f",
        "\x0b",
        "#",
        "x",
    ];
    match prng.below(6) {
        0 => prng.pick(&RESERVED).to_string(),
        1 => prng.pick(&LEAVES).to_string(),
        2 => wrong_name(prng),
        _ => prng.pick(&OTHERS).to_string(),
    }
}
