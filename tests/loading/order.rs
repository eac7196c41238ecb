//! Document 01's reading order as a recursive reader that keeps places only: where 7, 8 and 9 are met, where a term
//! starts, and where its atom or binder stands. Tokens and names are judged by the Rust's own functions. Both editions are read as
//! document 02 has them.
use answers::token_at;
use common::refusal::Refusal;
use common::tokens::{Kind, Token};
use common::vocabulary::{DECLARATION_KINDS, Edition, LEAVES, kind_number};
use hott_kernel::ParserParts;
use std::ops::Range;

/// "7 more than 512 frames open in one term"
const FRAMES: usize = 512;

pub type Span = Range<usize>;

#[derive(Clone, Copy)]
pub struct Limits {
    pub rows: usize,
    pub declarations: usize,
}

/// Where a stored row's term stands.
pub struct Stored {
    /// Req 01: "the offset of the term's first byte: its opening parenthesis, or its atom".
    pub start: usize,
    /// The span of its atom or binder, if it has one.
    pub span: Option<Span>,
}

/// A completed declaration.
pub struct Declared {
    pub kind: u32,
    pub name: Span,
}

/// How far reading went.
pub struct Reading {
    /// None where the source was read to its end.
    pub refusal: Option<Refusal>,
    pub rows: Vec<Stored>,
    pub declared: Vec<Declared>,
    /// The declarations whose parenthesis was opened.
    pub opened: usize,
}

type Read<T> = Result<T, Refusal>;

/// Reads a text that does not start with the mark.
pub fn read(text: &str, limits: Limits) -> Reading {
    let done = Reading { refusal: None, rows: Vec::new(), declared: Vec::new(), opened: 0 };
    let mut reader = Reader { text, at: 0, edition: Edition::First, limits, done };
    let refusal = reader.module().err();
    Reading { refusal, ..reader.done }
}

struct Reader<'a> {
    text: &'a str,
    at: usize,
    /// That of the head, once it is read.
    edition: Edition,
    limits: Limits,
    done: Reading,
}

impl<'a> Reader<'a> {
    fn module(&mut self) -> Read<()> {
        self.one(Kind::LParen)?;
        self.word("surface")?;
        let version = [self.numeral()?, self.numeral()?];
        self.one(Kind::RParen)?;
        let version = version.map(|span| &self.text[span]);
        self.edition = Edition::of(version).ok_or(Refusal::nowhere(2))?;
        self.one(Kind::LParen)?;
        self.word("module")?;
        self.name()?;
        self.one(Kind::RParen)?;
        loop {
            let token = self.token()?;
            match token.kind {
                Kind::Eof => return Ok(()),
                Kind::LParen => self.declaration()?,
                _ => return Err(malformed(token)),
            }
        }
    }

    fn declaration(&mut self) -> Read<()> {
        self.done.opened += 1;
        if self.done.declared.len() == self.limits.declarations {
            return Err(Refusal::nowhere(9));
        }
        let tag = self.one(Kind::Atom)?;
        let word = self.bytes(tag);
        let kind = kind_number(&DECLARATION_KINDS, word).ok_or(malformed(tag))?;
        let terms = if word == "postulate" { 1 } else { 2 };
        let name = self.name()?;
        for _ in 0..terms {
            self.term(0)?;
        }
        self.one(Kind::RParen)?;
        self.done.declared.push(Declared { kind, name });
        Ok(())
    }

    /// A term inside so many open frames.
    fn term(&mut self, open: usize) -> Read<()> {
        let token = self.token()?;
        match token.kind {
            Kind::Atom if LEAVES.contains(&self.bytes(token)) => self.store(Stored { start: token.start, span: None }),
            Kind::LParen => self.form(token.start, open),
            _ => Err(malformed(token)),
        }
    }

    /// A form behind its parenthesis.
    fn form(&mut self, start: usize, open: usize) -> Read<()> {
        let tag = self.one(Kind::Atom)?;
        let span = match self.bytes(tag) {
            "ref" => Some(self.name()?),
            "universe" => Some(self.numeral()?),
            word => {
                let form = self.edition.form(word).ok_or(malformed(tag))?;
                let binder = if form.binds { Some(self.name()?) } else { None };
                if open == FRAMES {
                    return Err(Refusal::nowhere(7));
                }
                for _ in 0..form.arity {
                    self.term(open + 1)?;
                }
                binder
            }
        };
        self.one(Kind::RParen)?;
        self.store(Stored { start, span })
    }

    /// Stores a completed term.
    fn store(&mut self, row: Stored) -> Read<()> {
        if self.done.rows.len() == self.limits.rows {
            return Err(Refusal::nowhere(8));
        }
        self.done.rows.push(row);
        Ok(())
    }

    fn token(&mut self) -> Read<Token> {
        let token = token_at(self.text, self.at);
        self.at = token.end;
        if token.kind == Kind::Refused { Err(malformed(token)) } else { Ok(token) }
    }

    fn one(&mut self, kind: Kind) -> Read<Token> {
        let token = self.token()?;
        if token.kind == kind { Ok(token) } else { Err(malformed(token)) }
    }

    fn word(&mut self, word: &str) -> Read<()> {
        let token = self.one(Kind::Atom)?;
        if self.bytes(token) == word { Ok(()) } else { Err(malformed(token)) }
    }

    fn numeral(&mut self) -> Read<Span> {
        let token = self.one(Kind::Atom)?;
        if ParserParts::is_natural(self.bytes(token)) { Ok(token.start..token.end) } else { Err(malformed(token)) }
    }

    fn name(&mut self) -> Read<Span> {
        let token = self.one(Kind::Atom)?;
        let word = self.bytes(token);
        if ParserParts::is_reserved(word) || self.edition.reserves_arrow(word) {
            return Err(Refusal::at(3, token.start));
        }
        if ParserParts::is_identifier(word) { Ok(token.start..token.end) } else { Err(malformed(token)) }
    }

    fn bytes(&self, atom: Token) -> &'a str {
        &self.text[atom.start..atom.end]
    }
}

/// "1 malformed, with offset: that byte's, else the first byte of the token that doesn't fit"
fn malformed(token: Token) -> Refusal {
    Refusal::at(1, token.start)
}
