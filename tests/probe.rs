//! The functions of the Rattle library `probe` behind safe ones. Under `--cfg mock` the reference answers instead.
use common::tokens::{self, Kind, Token};
use common::words;

#[cfg(mock)]
use crate::mock as library;

#[cfg(not(mock))]
mod library {
    // A `&[u8]` passes as a pointer and then a length.
    #[link(name = "probe", kind = "static")]
    unsafe extern "C" {
        pub fn sulyterom_token_kind(s: *const u8, length: usize, at: usize) -> u8;
        pub fn sulyterom_token_start(s: *const u8, length: usize, at: usize) -> usize;
        pub fn sulyterom_token_end(s: *const u8, length: usize, at: usize) -> usize;
        pub fn sulyterom_word_index(word: *const u8, length: usize) -> u8;
        pub fn sulyterom_name_test(word: *const u8, length: usize) -> u8;
        pub fn sulyterom_is_numeral(word: *const u8, length: usize) -> bool;
        pub fn sulyterom_same_bytes(a: *const u8, a_length: usize, b: *const u8, b_length: usize) -> bool;
        pub fn sulyterom_first_difference(a: *const u8, a_length: usize, b: *const u8, b_length: usize) -> usize;
        pub fn sulyterom_valid_up_to(s: *const u8, length: usize) -> usize;
        pub fn sulyterom_starts_with_mark(s: *const u8, length: usize) -> bool;
    }
}

// Each call lends a slice for its own time only, and the functions only read it.

/// The first token at or behind an offset.
pub fn token_at(source: &[u8], at: usize) -> Token {
    let (s, length) = (source.as_ptr(), source.len());
    let (kind, start, end) = unsafe {
        (
            library::sulyterom_token_kind(s, length, at),
            library::sulyterom_token_start(s, length, at),
            library::sulyterom_token_end(s, length, at),
        )
    };
    let kind = match kind {
        0 => Kind::Refused,
        1 => Kind::LParen,
        2 => Kind::RParen,
        3 => Kind::Atom,
        4 => Kind::Eof,
        other => panic!("a token of kind {other}"),
    };
    Token { kind, start, end }
}

/// The place among the reserved words in document 01's order, from 1; 0 for any other atom.
pub fn word_index(word: &[u8]) -> u8 {
    unsafe { library::sulyterom_word_index(word.as_ptr(), word.len()) }
}

/// 0 a name, 3 reserved, 1 not an identifier.
pub fn name_test(word: &[u8]) -> u8 {
    unsafe { library::sulyterom_name_test(word.as_ptr(), word.len()) }
}

pub fn is_numeral(word: &[u8]) -> bool {
    unsafe { library::sulyterom_is_numeral(word.as_ptr(), word.len()) }
}

pub fn same_bytes(a: &[u8], b: &[u8]) -> bool {
    unsafe { library::sulyterom_same_bytes(a.as_ptr(), a.len(), b.as_ptr(), b.len()) }
}

/// Where two names of one length differ first, or their length; none for names of other lengths.
pub fn first_difference(a: &[u8], b: &[u8]) -> Option<usize> {
    let place = unsafe { library::sulyterom_first_difference(a.as_ptr(), a.len(), b.as_ptr(), b.len()) };
    (place != usize::MAX).then_some(place)
}

pub fn valid_up_to(source: &[u8]) -> usize {
    unsafe { library::sulyterom_valid_up_to(source.as_ptr(), source.len()) }
}

pub fn starts_with_mark(source: &[u8]) -> bool {
    unsafe { library::sulyterom_starts_with_mark(source.as_ptr(), source.len()) }
}

/// The tokens up to the end or the refused byte.
pub fn tokens(source: &[u8]) -> Vec<Token> {
    tokens::stream(source.len(), |at| token_at(source, at))
}

/// What the tests for words say, as `common::words` writes it.
pub fn word_line(word: &[u8]) -> String {
    words::line(word_index(word), name_test(word), is_numeral(word))
}

/// The valid length and the leading mark, as utf8.txt writes them.
pub fn utf8_line(source: &[u8]) -> String {
    let mark = u8::from(starts_with_mark(source));
    format!("{} mark={mark}", valid_up_to(source))
}
