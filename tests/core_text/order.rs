//! Document 02's reading of core text as a recursive reader: where 7, 9 and 10 are met, where terms start, and the
//! spans of names and numerals. It is written from the words of the document and shares nothing with the Rust.
use super::tokens::{Kind, Token, next_token};
use crate::loading::order::{Limits, Span};
use common::refusal::Refusal;
use common::vocabulary::{FORMS, LEAVES};
use std::collections::HashSet;

/// "7 more than 512 frames open in one term"
const FRAMES: usize = 512;
/// The terms that hold a numeral.
const NUMERAL: [&str; 3] = ["var", "global", "universe"];

/// A completed term.
pub struct Stored {
    pub word: &'static str,
    /// "the eighth word the term's offset"
    pub start: usize,
    /// "Var, global and universe rows there hold their numeral's start and length"
    pub numeral: Option<Span>,
    pub children: Vec<usize>,
}

/// A completed declaration.
pub struct Declared {
    pub word: &'static str,
    /// What stands between the quotes.
    pub name: Span,
    pub ty: usize,
    pub body: Option<usize>,
}

/// How far reading went.
pub struct Reading {
    /// None where the text was read to its end, and no name is used twice.
    pub refusal: Option<Refusal>,
    pub rows: Vec<Stored>,
    pub declared: Vec<Declared>,
    /// The declarations whose parenthesis was opened.
    pub opened: usize,
}

type Read<T> = Result<T, Refusal>;

/// Reads a text that does not start with the mark.
pub fn read(text: &str, limits: Limits) -> Reading {
    let done = Reading { refusal: None, rows: Vec::new(), declared: Vec::new(), opened: 0 };
    let mut reader = Reader { text, at: 0, limits, done };
    let refusal = reader.module().and_then(|()| reader.names()).err();
    Reading { refusal, ..reader.done }
}

struct Reader<'a> {
    text: &'a str,
    at: usize,
    limits: Limits,
    done: Reading,
}

impl<'a> Reader<'a> {
    fn module(&mut self) -> Read<()> {
        self.opens("hott-core")?;
        self.opens("format")?;
        let format = [self.numeral()?, self.numeral()?];
        self.one(Kind::RParen)?;
        self.opens("theory")?;
        let theory = self.name()?;
        let version = [self.numeral()?, self.numeral()?];
        self.one(Kind::RParen)?;
        let [a, b] = format.map(|span| &self.text[span]);
        let [c, d] = version.map(|span| &self.text[span]);
        if [a, b, &self.text[theory], c, d] != ["0", "1", "mltt-core", "0", "1"] {
            return Err(Refusal::nowhere(2));
        }
        self.opens("declarations")?;
        while self.one_of([Kind::LParen, Kind::RParen])?.kind == Kind::LParen {
            self.declaration()?;
        }
        self.one(Kind::RParen)?;
        self.one(Kind::End)?;
        Ok(())
    }

    /// A name used twice is found last of all, and refused at 0.
    fn names(&self) -> Read<()> {
        let mut names = HashSet::new();
        let new = self.done.declared.iter().all(|declared| names.insert(&self.text[declared.name.clone()]));
        if new { Ok(()) } else { Err(Refusal::at(13, 0)) }
    }

    fn declaration(&mut self) -> Read<()> {
        self.done.opened += 1;
        if self.done.declared.len() == self.limits.declarations {
            return Err(Refusal::nowhere(9));
        }
        let tag = self.one(Kind::Atom)?;
        let words = ["postulate", "transparent", "opaque"];
        let word = words.into_iter().find(|word| self.bytes(tag) == *word).ok_or(malformed(tag))?;
        let name = self.name()?;
        let ty = self.term(0)?;
        let body = if word == "postulate" { None } else { Some(self.term(0)?) };
        self.one(Kind::RParen)?;
        self.done.declared.push(Declared { word, name, ty, body });
        Ok(())
    }

    /// A term inside so many open frames: its row.
    fn term(&mut self, open: usize) -> Read<usize> {
        let token = self.one_of([Kind::Atom, Kind::LParen])?;
        if token.kind == Kind::LParen {
            return self.form(token.start, open);
        }
        let word = LEAVES.into_iter().find(|word| self.bytes(token) == *word).ok_or(malformed(token))?;
        self.store(Stored { word, start: token.start, numeral: None, children: Vec::new() })
    }

    /// A form behind its parenthesis.
    fn form(&mut self, start: usize, open: usize) -> Read<usize> {
        let tag = self.one(Kind::Atom)?;
        let row = match NUMERAL.into_iter().find(|word| self.bytes(tag) == *word) {
            Some(word) => Stored { word, start, numeral: Some(self.numeral()?), children: Vec::new() },
            None => {
                let form = FORMS.iter().find(|form| self.bytes(tag) == form.word).ok_or(malformed(tag))?;
                if open == FRAMES {
                    return Err(Refusal::nowhere(7));
                }
                let children = (0..form.arity).map(|_| self.term(open + 1)).collect::<Read<_>>()?;
                Stored { word: form.word, start, numeral: None, children }
            }
        };
        self.one(Kind::RParen)?;
        self.store(row)
    }

    /// "10 is given when a completed term finds the table full"
    fn store(&mut self, row: Stored) -> Read<usize> {
        let number = self.done.rows.len();
        if number == self.limits.rows {
            return Err(Refusal::nowhere(10));
        }
        self.done.rows.push(row);
        Ok(number)
    }

    fn token(&mut self) -> Read<Token> {
        let token = next_token(self.text, self.at)?;
        self.at = token.end;
        Ok(token)
    }

    fn one_of<const N: usize>(&mut self, kinds: [Kind; N]) -> Read<Token> {
        let token = self.token()?;
        if kinds.contains(&token.kind) { Ok(token) } else { Err(malformed(token)) }
    }

    fn one(&mut self, kind: Kind) -> Read<Token> {
        self.one_of([kind])
    }

    /// A parenthesis and this word.
    fn opens(&mut self, word: &str) -> Read<()> {
        self.one(Kind::LParen)?;
        let tag = self.one(Kind::Atom)?;
        if self.bytes(tag) == word { Ok(()) } else { Err(malformed(tag)) }
    }

    fn numeral(&mut self) -> Read<Span> {
        let token = self.one(Kind::Atom)?;
        let digits = self.bytes(token);
        let leads = digits.len() > 1 && digits.starts_with('0');
        let is_numeral = digits.bytes().all(|byte| byte.is_ascii_digit()) && !leads;
        if is_numeral { Ok(token.start..token.end) } else { Err(malformed(token)) }
    }

    /// The span between the quotes.
    fn name(&mut self) -> Read<Span> {
        let token = self.one(Kind::String)?;
        Ok(token.start + 1..token.end - 1)
    }

    fn bytes(&self, atom: Token) -> &'a str {
        &self.text[atom.start..atom.end]
    }
}

/// At the first byte of the token that doesn't fit.
fn malformed(token: Token) -> Refusal {
    Refusal::at(13, token.start)
}
