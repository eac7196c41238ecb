//! Tokens of core text by document 02: names are strings, and there are no comments.
use common::refusal::Refusal;

#[derive(Clone, Copy, Debug, PartialEq)]
pub enum Kind {
    LParen,
    RParen,
    Atom,
    /// With its quotes.
    String,
    End,
}

#[derive(Clone, Copy)]
pub struct Token {
    pub kind: Kind,
    pub start: usize,
    pub end: usize,
}

const LAYOUT: [char; 4] = ['\t', '\n', '\r', ' '];
/// They end an atom too.
const OTHERS: [char; 3] = ['(', ')', '"'];

/// The first token at or behind an offset, or the refusal of a character.
pub fn next_token(text: &str, at: usize) -> Result<Token, Refusal> {
    let rest = text[at..].trim_start_matches(LAYOUT);
    let start = text.len() - rest.len();
    let (kind, length) = match rest.chars().next() {
        None => (Kind::End, Ok(0)),
        Some('(') => (Kind::LParen, Ok(1)),
        Some(')') => (Kind::RParen, Ok(1)),
        Some('"') => (Kind::String, string_length(rest)),
        Some(_) => (Kind::Atom, atom_length(rest)),
    };
    let length = length.map_err(|inside| Refusal::at(13, start + inside))?;
    Ok(Token { kind, start, end: start + length })
}

/// The length of the atom that `rest` starts with, or where a character stands that is no part of an atom and ends
/// none.
fn atom_length(rest: &str) -> Result<usize, usize> {
    let is_atom = |character: char| character.is_ascii_graphic() && !OTHERS.contains(&character);
    let length = rest.find(|character| !is_atom(character)).unwrap_or(rest.len());
    let ends = |next: char| LAYOUT.contains(&next) || OTHERS.contains(&next);
    if rest[length..].chars().next().is_none_or(ends) { Ok(length) } else { Err(length) }
}

/// The length of the string that `rest` starts with, or where it is refused: at a character that may not stand inside,
/// at a backslash before another than a quote or backslash, and at the opening quote where it is empty or is not
/// closed.
fn string_length(rest: &str) -> Result<usize, usize> {
    let mut characters = rest.char_indices().skip(1);
    while let Some((at, character)) = characters.next() {
        match character {
            '"' if at == 1 => return Err(0),
            '"' => return Ok(at + 1),
            '\\' => {
                let escaped = characters.next().map(|(_, escaped)| escaped);
                if !matches!(escaped, Some('"' | '\\')) {
                    return Err(at);
                }
            }
            '\0'..='\u{1f}' | '\u{7f}'..='\u{9f}' => return Err(at),
            _ => {}
        }
    }
    Err(0)
}
