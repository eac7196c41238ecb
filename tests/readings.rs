//! What the functions on bytes, tokens and words alone decide of an answer to loading.
use crate::probe;
use common::lists::Line;
use common::tally::{Mismatch, differ};
use common::tokens::{self, Kind, Token};

pub fn check_answer(line: &Line) -> Option<Mismatch> {
    let source = &line.source;
    let valid = probe::valid_up_to(source);
    if valid < source.len() {
        return differ("UTF-8", line.answer.clone(), format!("refused 1 at {valid}"));
    }
    if probe::starts_with_mark(source) {
        return differ("leading mark", line.answer.clone(), String::from("refused 1 at 0"));
    }
    let tokens = probe::tokens(source);
    let fits = match line.answer.split(' ').collect::<Vec<_>>()[..] {
        ["refused", "1", "at", offset] => is_malformed_at(&tokens, offset),
        ["refused", "2"] => is_other_version(source, &tokens),
        ["refused", "3", "at", offset] => is_reserved_at(source, &tokens, offset),
        ["refused", "4" | "5"] | ["nodes", ..] => is_read_whole(source, &tokens),
        _ => false,
    };
    (!fits).then(|| Mismatch {
        what: String::from("tokens for the answer"),
        expected: line.answer.clone(),
        found: tokens::line(&tokens),
    })
}

/// 1: "that byte's [offset], else the first byte of the token that doesn't fit".
fn is_malformed_at(tokens: &[Token], offset: &str) -> bool {
    tokens.iter().any(|token| token.start.to_string() == offset)
}

/// 2: two numerals that are not 0 and 1 or 2, and the closing parenthesis.
fn is_other_version(source: &[u8], tokens: &[Token]) -> bool {
    let [open, surface, major, minor, close, ..] = tokens else {
        return false;
    };
    let [surface, major, minor] = [surface, major, minor].map(|token| atom(source, token));
    let known = [b"1", b"2"].iter().any(|known| probe::same_bytes(minor, *known));
    let known = known && probe::same_bytes(major, b"0");
    open.kind == Kind::LParen
        && probe::word_index(surface) == 1
        && probe::is_numeral(major)
        && probe::is_numeral(minor)
        && !known
        && close.kind == Kind::RParen
}

/// The bytes of an atom, none of any other token.
fn atom<'a>(source: &'a [u8], token: &Token) -> &'a [u8] {
    let bytes = source.get(token.start..token.end);
    bytes.filter(|_| token.kind == Kind::Atom).unwrap_or_default()
}

/// 3: a reserved word is the atom there, or `arrow` in a source of 0 2; these functions know the words of 0 1.
fn is_reserved_at(source: &[u8], tokens: &[Token], offset: &str) -> bool {
    let second = tokens.get(3).is_some_and(|minor| probe::same_bytes(atom(source, minor), b"2"));
    tokens.iter().filter(|token| token.start.to_string() == offset).any(|token| {
        let word = atom(source, token);
        let reserved = probe::word_index(word) != 0 && probe::name_test(word) == 3;
        reserved || second && probe::same_bytes(word, b"arrow")
    })
}

/// 4, 5 and acceptance: every parenthesis is closed, and the end's offset is the source length.
fn is_read_whole(source: &[u8], tokens: &[Token]) -> bool {
    let mut open = 0_usize;
    for token in tokens {
        match token.kind {
            Kind::LParen => open += 1,
            Kind::RParen if open == 0 => return false,
            Kind::RParen => open -= 1,
            _ => {}
        }
    }
    let end = Token::new(Kind::Eof, source.len());
    open == 0 && tokens.last() == Some(&end)
}
