//! Tokens of a source.
use crate::{Refusal, library};
use core::iter;

/// What a token is.
#[derive(Clone, Copy, Debug, Eq, Hash, PartialEq)]
pub enum TokenKind {
    /// `(`
    LeftParenthesis,
    /// `)`
    RightParenthesis,
    /// A word, a name or a numeral.
    Atom,
    /// The end of the source, which is no byte of it.
    End,
}

/// A token: a part of the source.
#[derive(Clone, Copy, Debug, Eq, Hash, PartialEq)]
pub struct Token {
    /// What it is.
    pub kind: TokenKind,
    /// The offset of its first byte.
    pub start: usize,
    /// The offset behind its last byte.
    pub end: usize,
}

/// The first token at or behind an offset; layout and comments before it are passed over.
///
/// # Errors
///
/// [`Class::Malformed`](crate::Class::Malformed) at a byte that can be no part of a token.
///
/// ```
/// use sulyterom::{Token, TokenKind, token};
///
/// let source = b"(ref ; a comment\n x) ]";
/// assert_eq!(token(source, 4), Ok(Token { kind: TokenKind::Atom, start: 18, end: 19 }));
/// assert_eq!(token(source, 20).unwrap_err().offset, Some(21));
/// ```
pub fn token(source: &[u8], at: usize) -> Result<Token, Refusal> {
    let (kind, start, end) = match library::token(source, at) {
        (0, [3, kind, start, end]) => (kind, start as usize, end as usize),
        (class, answer) => return Err(Refusal::from_four(class, answer)),
    };
    let kind = match kind {
        1 => TokenKind::LeftParenthesis,
        2 => TokenKind::RightParenthesis,
        3 => TokenKind::Atom,
        4 => TokenKind::End,
        _ => unreachable!("the library's promise rules out a token of kind {kind}"),
    };
    Ok(Token { kind, start, end })
}

/// The tokens of a source, up to its end, or up to a byte that can be no part of one.
///
/// ```
/// let texts = sulyterom::tokens(b"(ref x)").map(|token| token.map(|token| (token.start, token.end)));
/// assert!(texts.eq([Ok((0, 1)), Ok((1, 4)), Ok((5, 6)), Ok((6, 7)), Ok((7, 7))]));
/// ```
pub fn tokens(source: &[u8]) -> impl Iterator<Item = Result<Token, Refusal>> {
    let mut at = Some(0);
    iter::from_fn(move || {
        let read = token(source, at?);
        at = read.ok().filter(|token| token.kind != TokenKind::End).map(|token| token.end);
        Some(read)
    })
}
