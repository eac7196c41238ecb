//! Names as strings: with every character that may not stand in them, with escapes, and some that no source can have.
use super::texts::HEAD;
use common::prng::Prng;
use common::unicode::CHARACTERS;
use common::vocabulary::{NO_NAMES, ORDINARY_NAMES, RESERVED};

/// A string, of the sort that is taken.
pub fn name(prng: &mut Prng) -> String {
    let inside: String = (0..prng.between(1, 4)).map(|_| piece(prng)).collect();
    format!("\"{inside}\"")
}

fn piece(prng: &mut Prng) -> String {
    match prng.below(8) {
        0 => prng.pick(&RESERVED).to_string(),
        1 => prng.pick(&ORDINARY_NAMES).to_string(),
        2 => prng.pick(&NO_NAMES).to_string(),
        3 => prng.pick(&["\\\"", "\\\\", "\\\\\\\"", "\\\"\\\""]).to_string(),
        4 => prng.pick(&[" ", "  ", "(", ")", ";", "; nat", "#", "~", "'", "mltt-core"]).to_string(),
        5 => {
            let taken: Vec<char> = CHARACTERS.into_iter().filter(|character| !character.is_control()).collect();
            prng.pick(&taken).to_string()
        }
        _ => char::from(*prng.pick(b"abcxyz019_")).to_string(),
    }
}

/// A few strings.
pub fn few(prng: &mut Prng) -> Vec<String> {
    (0..prng.between(1, 12)).map(|_| name(prng)).collect()
}

/// Strings of one length that differ in one byte.
pub fn alike(prng: &mut Prng) -> Vec<String> {
    let length = *prng.pick(&[1, 7, 8, 9, 15, 16, 17, 31, 33, 64, 300]);
    let common = "a".repeat(length);
    let mut changed = |byte: char| {
        let at = prng.below(length);
        format!("\"{}{byte}{}\"", &common[..at], &common[at + 1..])
    };
    "bcdefghi ;(".chars().map(&mut changed).collect()
}

/// A string with a character that may not stand there, a wrong escape, none at all, or without its end.
pub fn wrong_name(prng: &mut Prng) -> String {
    let right = name(prng);
    let inside = &right[1..right.len() - 1];
    let wrong = char::from_u32(*prng.pick(&[0, 9, 10, 13, 27, 31, 127, 128, 133, 159])).expect("a character");
    match prng.below(8) {
        0 | 1 => format!("\"{inside}{wrong}\""),
        2 => format!("\"{wrong}{inside}\""),
        3 => format!("\"{inside}\\{}\"", prng.pick(&["n", "u0041", " ", "é", "'", "/", "x"])),
        4 => String::from("\"\""),
        5 => format!("\"{inside}"),
        6 => format!("\"{inside}\\"),
        _ => format!("{inside}\""),
    }
}

/// Every character up to U+00FF and some more, in a name, behind a backslash, in an atom, between tokens, and in the
/// theory's name; and every byte alone, which from 128 on is not UTF-8.
pub fn by_characters(mut visit: impl FnMut(&[u8])) {
    let characters = (0..=255).map(char::from).chain(CHARACTERS);
    for character in characters {
        let one = character.to_string();
        for name in ["C", "aC", "Cb", "aCb", "\\C", "a\\C", "\\\\C", "\\\"C", "aCC", "a\\CC"] {
            let name = name.replace('C', &one);
            visit(format!("{HEAD} (postulate \"{name}\" nat)))\n").as_bytes());
            visit(format!("{HEAD} (postulate \"{name}").as_bytes());
            visit(HEAD.replace("mltt-core", &name).as_bytes());
        }
        for term in ["natC", "Cnat", "nCt", "nat C", "C nat", "(var 0C)", "(varC0)", "(fstCnat)", "(fst natC)"] {
            let term = term.replace('C', &one);
            visit(format!("{HEAD} (postulate \"a\" {term})))\n").as_bytes());
            visit(format!("{HEAD} (postulate \"a\"{term}").as_bytes());
        }
    }
    for byte in 0..=255 {
        visit(&[HEAD.as_bytes(), b" (postulate \"a", &[byte], b"\" nat)))\n"].concat());
        visit(&[&[byte], HEAD.as_bytes(), b"))\n"].concat());
        visit(&[HEAD.as_bytes(), b"))\n", &[byte]].concat());
    }
}
