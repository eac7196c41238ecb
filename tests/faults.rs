//! Mistakes about tokens, words and UTF-8 that are easily made, one at a time, to see that the tests notice each.
//! `common::fault` has their names. A function that gives an Option gives None where the fault leaves it alone.
use common::fault::{TEXT, fault, is};
use common::tokens::{Kind, Token};
use common::vocabulary::RESERVED;

/// Whether the fault is one of the first so many, which are about tokens.
fn is_about_tokens() -> bool {
    TEXT[..15].contains(&fault())
}

pub fn token(source: &[u8], at: usize) -> Option<Token> {
    is_about_tokens().then(|| next_token(source, at))
}

/// The token by document 01, with the mistake.
pub fn next_token(source: &[u8], at: usize) -> Token {
    let start = skip_layout(source, at);
    let Some(&byte) = source.get(start).filter(|byte| **byte != 0 || !is("byte-0-is-the-end")) else {
        return Token::new(Kind::Eof, if is("end-at-last-token") { at } else { start });
    };
    match byte {
        b'(' => Token::new(Kind::LParen, start),
        b')' => Token::new(Kind::RParen, start),
        b'[' if is("brackets-accepted") => Token::new(Kind::LParen, start),
        byte if is_atom_byte(byte) => lex_atom(source, start),
        _ => refused(start),
    }
}

fn refused(at: usize) -> Token {
    let token = Token::new(Kind::Refused, at);
    Token { end: at + usize::from(is("refused-end-one-late")), ..token }
}

fn skip_layout(source: &[u8], mut at: usize) -> usize {
    let mut comments = 0;
    while let Some(&byte) = source.get(at) {
        if byte == b';' && !(is("one-comment-only") && comments == 1) {
            comments += 1;
            let missed = |place: usize| is("comment-goes-over-a-16th-byte") && place % 16 == 0;
            let mut places = source[at..].iter().enumerate();
            let end = places.position(|(place, byte)| ends_comment(*byte) && !missed(place));
            at += end.unwrap_or(source.len() - at);
        } else if passes_eight(&source[at..]) {
            at += 8;
        } else if is_layout(byte) {
            at += 1;
        } else {
            break;
        }
    }
    at
}

/// A mistake about eight spaces that are passed over at once.
fn passes_eight(rest: &[u8]) -> bool {
    match fault() {
        "eight-spaces-by-seven" => rest.len() >= 8 && rest[..7] == [b' '; 7],
        "eight-spaces-beyond-the-end" => rest.iter().take(8).all(|byte| *byte == b' '),
        _ => false,
    }
}

fn ends_comment(byte: u8) -> bool {
    byte == b'\n' && !is("comment-to-the-end") || byte == b'\r' && is("comment-ends-at-13")
}

fn is_layout(byte: u8) -> bool {
    match byte {
        b' ' | b'\t' | b'\n' => true,
        b'\r' => !is("byte-13-no-layout"),
        11 | 12 => is("bytes-11-12-layout"),
        127 => is("byte-127-is-layout"),
        _ => false,
    }
}

fn is_atom_byte(byte: u8) -> bool {
    match byte {
        b'-' => !is("hyphen-no-atom"),
        b'_' => !is("underscore-no-atom"),
        b'`' => is("byte-96-makes-atoms"),
        128.. => is("atom-of-any-byte-above-127"),
        _ => byte.is_ascii_alphanumeric(),
    }
}

fn lex_atom(source: &[u8], start: usize) -> Token {
    for (at, &byte) in source.iter().enumerate().skip(start) {
        let ends = b"() \t\n\r".contains(&byte) || byte == b';' && !is("atom-goes-over-semicolon") || is_layout(byte);
        if ends {
            return Token::atom(start, at + usize::from(is("atom-end-one-late")));
        }
        if !is_atom_byte(byte) && byte != b';' {
            return refused(if is("refused-at-atom-start") { start } else { at });
        }
    }
    Token::atom(start, source.len())
}

pub fn word_index(word: &[u8]) -> Option<u8> {
    let alike = |other: &[u8]| match fault() {
        "reserved-by-prefix" => word.starts_with(other),
        "reserved-without-case" => word.eq_ignore_ascii_case(other),
        "reserved-by-both-ends" => by_both_ends(word, other),
        "reserved-by-the-slot" => word.len().max(other.len()) < 8 && slot(word) == slot(other),
        "one-reserved-word-less" => word == other && word != b"sigma",
        _ => word == other,
    };
    let place = RESERVED.iter().position(|reserved| alike(reserved.as_bytes())).map(|place| place as u8 + 1);
    match fault() {
        "reserved-by-prefix" | "reserved-without-case" | "reserved-by-both-ends" => Some(place.unwrap_or(0)),
        "one-reserved-word-less" | "reserved-by-the-slot" => Some(place.unwrap_or(0)),
        "index-from-0" => Some(place.map_or(0, |place| place - 1)),
        "arrow-reserved" if word == b"arrow" => Some(27),
        _ => None,
    }
}

/// The slot in which crates/words looks for a word of fewer than eight bytes.
fn slot(word: &[u8]) -> u64 {
    let number = word.iter().rev().fold(1, |number, byte| number * 256 + u64::from(*byte));
    number % (1 << 32) * 5011 / (1 << 20) % 32
}

fn by_both_ends(a: &[u8], b: &[u8]) -> bool {
    a.len() == b.len() && a.first() == b.first() && a.last() == b.last()
}

pub fn name_test(word: &[u8]) -> Option<u8> {
    let letters =
        |more: &[u8]| word.iter().all(|byte| byte.is_ascii_alphanumeric() || *byte == b'_' || more.contains(byte));
    let digit_first = word.first().is_some_and(u8::is_ascii_digit);
    let reserved = RESERVED.iter().any(|reserved| reserved.as_bytes() == word);
    match fault() {
        "identifier-before-reserved" if word.contains(&b'-') => Some(1),
        "hyphen-in-names" if !reserved && !digit_first && !word.is_empty() && letters(b"-") => Some(0),
        "digit-starts-a-name" if digit_first && letters(b"") => Some(0),
        "underscore-is-blank" if word == b"_" => Some(1),
        _ => None,
    }
}

pub fn is_numeral(word: &[u8]) -> Option<bool> {
    let digits = word.iter().all(u8::is_ascii_digit);
    match fault() {
        "leading-zero" if !word.is_empty() => Some(digits),
        "zero-no-numeral" if word == b"0" => Some(false),
        "empty-numeral" if word.is_empty() => Some(true),
        "numeral-of-32-bits" if digits && word.len() > 10 => Some(false),
        _ => None,
    }
}

pub fn same_bytes(a: &[u8], b: &[u8]) -> Option<bool> {
    let shorter = a.len().min(b.len());
    match fault() {
        "same-by-length" => Some(a.len() == b.len()),
        "same-by-prefix" => Some(a[..shorter] == b[..shorter]),
        "same-by-32-bytes" => Some(a.len() == b.len() && a[..shorter.min(32)] == b[..shorter.min(32)]),
        "same-by-both-ends" => Some(by_both_ends(a, b)),
        _ => None,
    }
}

/// Of two names of one length.
pub fn first_difference(a: &[u8], b: &[u8]) -> Option<usize> {
    let differs = |place: &usize| a[*place] != b[*place];
    let mut places = 0..a.len();
    match fault() {
        "difference-last" => Some(places.rfind(differs).unwrap_or(a.len())),
        "difference-not-in-the-last-byte" => {
            Some(places.find(differs).filter(|at| at + 1 < a.len()).unwrap_or(a.len()))
        }
        "difference-by-blocks" => Some(places.find(differs).map_or(a.len(), |place| place / 8 * 8)),
        _ => None,
    }
}

pub fn valid_up_to(source: &[u8]) -> Option<usize> {
    let about_utf8 = ["surrogates", "overlong", "above-f4-8f", "cut-sequence-valid", "offset-of-the-broken-byte"];
    about_utf8.contains(&fault()).then(|| valid_beginning(source))
}

/// The length of the longest valid beginning by the Unicode standard's table 3-7, with the mistake.
pub fn valid_beginning(source: &[u8]) -> usize {
    let mut at = 0;
    while let Some(&first) = source.get(at) {
        let (length, low, high) = match first {
            0..=0x7f => (1, 0, 0),
            _ if is("ascii-in-every-64th-byte") && at % 64 == 63 => (1, 0, 0),
            0xc0 | 0xc1 if is("overlong") => (2, 0x80, 0xbf),
            0xc2..=0xdf => (2, 0x80, 0xbf),
            0xe0 if !is("overlong") => (3, 0xa0, 0xbf),
            0xed if !is("surrogates") => (3, 0x80, 0x9f),
            0xe0..=0xef => (3, 0x80, 0xbf),
            0xf0 if !is("overlong") => (4, 0x90, 0xbf),
            0xf4 if !is("above-f4-8f") => (4, 0x80, 0x8f),
            0xf0..=0xf4 => (4, 0x80, 0xbf),
            _ => return at,
        };
        for place in 1..length {
            let range = if place == 1 { low..=high } else { 0x80..=0xbf };
            match source.get(at + place) {
                Some(byte) if range.contains(byte) => {}
                Some(_) if is("offset-of-the-broken-byte") => return at + place,
                None if is("cut-sequence-valid") => return source.len(),
                _ => return at,
            }
        }
        at += length;
    }
    at
}

pub fn starts_with_mark(source: &[u8]) -> Option<bool> {
    is("mark-of-two-bytes").then(|| source.starts_with(b"\xef\xbb"))
}
