//! The reference in the place of the Rattle library, to try the test programs before it exists, and to see them
//! fail: the environment variable FAULT names a mistake of `faults` that is made on purpose.
use crate::faults;
use answers::token_at;
use common::tokens::Token;
use common::vocabulary::RESERVED;
use hott_kernel::ParserParts;

unsafe fn slice<'a>(s: *const u8, length: usize) -> &'a [u8] {
    unsafe { std::slice::from_raw_parts(s, length) }
}

/// The Rust's functions take a `str`. They look at bytes and cut out atoms only, so that nothing depends on its
/// being UTF-8; and a test of the whole source for each token would be slow.
fn text(source: &[u8]) -> &str {
    unsafe { std::str::from_utf8_unchecked(source) }
}

unsafe fn token(s: *const u8, length: usize, at: usize) -> Token {
    let source = unsafe { slice(s, length) };
    faults::token(source, at).unwrap_or_else(|| token_at(text(source), at))
}

pub unsafe fn sulyterom_token_kind(s: *const u8, length: usize, at: usize) -> u8 {
    unsafe { token(s, length, at) }.kind as u8
}

pub unsafe fn sulyterom_token_start(s: *const u8, length: usize, at: usize) -> usize {
    unsafe { token(s, length, at) }.start
}

pub unsafe fn sulyterom_token_end(s: *const u8, length: usize, at: usize) -> usize {
    unsafe { token(s, length, at) }.end
}

pub unsafe fn sulyterom_word_index(word: *const u8, length: usize) -> u8 {
    let word = unsafe { slice(word, length) };
    faults::word_index(word).unwrap_or_else(|| {
        let place = RESERVED.iter().position(|reserved| reserved.as_bytes() == word);
        assert_eq!(place.is_some(), ParserParts::is_reserved(text(word)));
        place.map_or(0, |place| place as u8 + 1)
    })
}

pub unsafe fn sulyterom_name_test(word: *const u8, length: usize) -> u8 {
    let word = unsafe { slice(word, length) };
    faults::name_test(word).unwrap_or_else(|| {
        let reserved = ParserParts::is_reserved(text(word));
        let name = ParserParts::is_identifier(text(word));
        if reserved { 3 } else { u8::from(!name) }
    })
}

pub unsafe fn sulyterom_is_numeral(word: *const u8, length: usize) -> bool {
    let word = unsafe { slice(word, length) };
    faults::is_numeral(word).unwrap_or_else(|| ParserParts::is_natural(text(word)))
}

pub unsafe fn sulyterom_same_bytes(a: *const u8, a_length: usize, b: *const u8, b_length: usize) -> bool {
    let (a, b) = unsafe { (slice(a, a_length), slice(b, b_length)) };
    faults::same_bytes(a, b).unwrap_or(a == b)
}

pub unsafe fn sulyterom_first_difference(a: *const u8, a_length: usize, b: *const u8, b_length: usize) -> usize {
    let (a, b) = unsafe { (slice(a, a_length), slice(b, b_length)) };
    if a.len() != b.len() {
        return usize::MAX;
    }
    let shared = || (0..a.len()).take_while(|place| a[*place] == b[*place]).count();
    faults::first_difference(a, b).unwrap_or_else(shared)
}

pub unsafe fn sulyterom_valid_up_to(s: *const u8, length: usize) -> usize {
    let source = unsafe { slice(s, length) };
    faults::valid_up_to(source).unwrap_or_else(|| answers::valid_up_to(source))
}

pub unsafe fn sulyterom_starts_with_mark(s: *const u8, length: usize) -> bool {
    let source = unsafe { slice(s, length) };
    faults::starts_with_mark(source).unwrap_or_else(|| source.starts_with(b"\xef\xbb\xbf"))
}
