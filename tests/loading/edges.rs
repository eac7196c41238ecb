//! Random sources at the edges: of length, encoding, version and open frames, and with one token changed.
use super::generated::{deep, printed};
use common::modules::{Module, Shape, generate};
use common::printing::{Layout, comment, join, tokens};
use common::prng::Prng;
use common::unicode::{FAULTS, MARK};
use common::vocabulary::{Edition, FORMS, NO_NAMES, ORDINARY_NAMES, RESERVED, numeral};

pub fn source(prng: &mut Prng) -> Vec<u8> {
    match prng.below(32) {
        0 | 1 => long(prng),
        2 | 3 => printed(&deep(prng), prng),
        4 => printed(&side_by_side(prng), prng),
        5..=7 => open_frames(prng),
        8..=11 => marked(prng),
        12..=15 => other_version(prng),
        16..=19 => broken(prng),
        _ => changed_token(prng),
    }
}

fn small(prng: &mut Prng) -> Vec<u8> {
    printed(&generate(prng, &Shape::accepted()), prng)
}

/// A module and layout or a comment behind it, up to about 65,535 bytes, and perhaps a broken sequence last.
fn long(prng: &mut Prng) -> Vec<u8> {
    let length = prng.between(65_533, 65_538);
    let mut source = small(prng);
    if prng.chance(50) {
        source.extend(b"\n;");
    }
    let last: &[u8] = if prng.chance(40) { prng.pick::<&[u8]>(&FAULTS) } else { b"" };
    source.resize(length - last.len(), b' ');
    source.extend(last);
    source
}

/// More than 512 forms in one term, few of them inside each other.
fn side_by_side(prng: &mut Prng) -> Module {
    let shape = Shape { declarations: 1, depth: 12, size: 3_000, ..Shape::accepted() };
    generate(prng, &shape)
}

/// About 512 open frames, and then a fragment and nothing more.
fn open_frames(prng: &mut Prng) -> Vec<u8> {
    const FRAGMENTS: [&str; 21] = [
        "",
        "(",
        "(bogus",
        "(fst",
        "(fst]",
        "(fst ]",
        "(pi",
        "(pi ",
        "(pi nat",
        "(pi a-b",
        "(pi x",
        "(pi x]",
        "(arrow",
        "(arrow ",
        "(arrow]",
        "(arrow ]",
        "(arrow arrow",
        "(ref q)",
        "nat",
        "(universe 0)",
        ")",
    ];
    let frames = *prng.pick(&[3, 510, 511, 512, 512, 512, 513]);
    let edition = *prng.pick(&Edition::BOTH);
    let mut text = format!("{}(postulate a ", edition.head());
    for _ in 0..frames {
        let form = edition.any_form(FORMS.len(), prng);
        let name = if form.binds { edition.ordinary_name(prng) } else { "" };
        let inner = prng.below(form.arity);
        text.push_str(&format!("({} {name} {}", form.word, "nat ".repeat(inner)));
    }
    text.push_str(prng.pick::<&str>(&FRAGMENTS));
    text.into_bytes()
}

/// The mark before a module, a comment or a fault.
fn marked(prng: &mut Prng) -> Vec<u8> {
    let part = prng.between(1, 3);
    let mut source = MARK[..part].to_vec();
    source.extend(small(prng));
    source.extend(*prng.pick(&[&b""[..], b";\xff", b"]", b"\xc3\xa9"]));
    source
}

/// A head with any two numerals.
fn other_version(prng: &mut Prng) -> Vec<u8> {
    let mut number = || {
        let digits = prng.between(1, 3);
        let some = ["0", "0", "1", "2", "2", "3", "00", "01", "02", "10", "20"];
        if prng.chance(60) { prng.pick(&some).to_string() } else { numeral(prng, digits) }
    };
    let head = format!("(surface {} {}", number(), number());
    let rest = *prng.pick(&[
        "",
        ")",
        ") ]",
        ")(module m)",
        " 1)",
        "]",
        ")(module nat)",
        ")(module arrow)",
        ")(module m)(postulate a (arrow nat nat))",
        ")\u{e9}",
    ]);
    format!("{head}{rest}").into_bytes()
}

/// A module with a comment that has a broken sequence, or a broken sequence behind an early fault.
fn broken(prng: &mut Prng) -> Vec<u8> {
    let mut source = small(prng);
    if prng.chance(30) {
        source.insert(0, b']');
    }
    source.push(b'\n');
    source.extend(comment(prng));
    source.extend(*prng.pick(&FAULTS));
    source
}

/// A module in which one token is another, is missing or stands twice.
fn changed_token(prng: &mut Prng) -> Vec<u8> {
    let mut tokens = tokens(&generate(prng, &Shape::accepted()));
    let is_word = |at: &usize| tokens[*at].starts_with(|first: char| first.is_ascii_alphabetic() || first == '_');
    let words: Vec<usize> = (0..tokens.len()).filter(is_word).collect();
    let at = if prng.chance(60) { *prng.pick(&words) } else { prng.below(tokens.len()) };
    let other = match prng.below(7) {
        0 | 1 => *prng.pick(&RESERVED),
        2 => *prng.pick(&ORDINARY_NAMES),
        3 => *prng.pick(&NO_NAMES),
        4 => "arrow",
        _ => *prng.pick(&["(", ")", "]", "0", "1", "2", "00", "07", ";"]),
    };
    match prng.below(6) {
        0 => drop(tokens.remove(at)),
        1 => tokens.insert(at, other.to_string()),
        2 if tokens[at] == "(" => tokens[at] = String::from("["),
        _ => tokens[at] = other.to_string(),
    }
    let layout = *prng.pick(&[Layout::Tight, Layout::Spaced, Layout::Wild]);
    join(&tokens, layout, prng)
}
