//! Tokens as text: `(START`, `)START`, `aSTART-END`, and last `eOFFSET` or, for a refused byte, `!OFFSET`.
use std::fmt;

#[derive(Clone, Copy, Debug, PartialEq)]
pub enum Kind {
    Refused,
    LParen,
    RParen,
    Atom,
    Eof,
}

#[derive(Clone, Copy, Debug, PartialEq)]
pub struct Token {
    pub kind: Kind,
    pub start: usize,
    pub end: usize,
}

impl Token {
    /// A token whose end follows from its start.
    pub const fn new(kind: Kind, start: usize) -> Self {
        let end = match kind {
            Kind::LParen | Kind::RParen => start + 1,
            _ => start,
        };
        Self { kind, start, end }
    }

    pub const fn atom(start: usize, end: usize) -> Self {
        Self { kind: Kind::Atom, start, end }
    }

    pub fn is_last(self) -> bool {
        matches!(self.kind, Kind::Eof | Kind::Refused)
    }
}

impl fmt::Display for Token {
    /// The end is written for atoms, and where it is wrong.
    fn fmt(&self, out: &mut fmt::Formatter<'_>) -> fmt::Result {
        let letter = match self.kind {
            Kind::LParen => '(',
            Kind::RParen => ')',
            Kind::Atom => 'a',
            Kind::Eof => 'e',
            Kind::Refused => '!',
        };
        write!(out, "{letter}{}", self.start)?;
        if self.kind == Kind::Atom || *self != Self::new(self.kind, self.start) {
            write!(out, "-{}", self.end)?;
        }
        Ok(())
    }
}

/// The tokens of a source of `length` bytes, up to the end or the refused byte.
/// A function that does not move on is stopped: no source has more tokens than bytes and an end.
pub fn stream(length: usize, token_at: impl Fn(usize) -> Token) -> Vec<Token> {
    let mut tokens = Vec::new();
    let mut at = 0;
    while tokens.len() <= length {
        let token = token_at(at);
        tokens.push(token);
        if token.is_last() {
            break;
        }
        at = token.end;
    }
    tokens
}

pub fn line(tokens: &[Token]) -> String {
    let words: Vec<String> = tokens.iter().map(Token::to_string).collect();
    words.join(" ")
}
