//! Reading core text with a list of open frames, into words.
use super::tokens::next_token;
use crate::core_text::tokens::{Kind, Token};
use crate::loading::tables::{OFFSET, ROW};
use common::fault::{fault, is};
use common::refusal::Refusal;
use common::vocabulary::{DECLARATION_KINDS, FORMS, Form, KINDS, LEAVES, RESERVED, kind_number};

/// The words of rows and records, and for each declaration its name's string.
#[derive(Default)]
pub struct Read {
    pub core: Vec<u32>,
    pub declarations: Vec<u32>,
    names: Vec<Token>,
}

type Result<T> = std::result::Result<T, Refusal>;

impl Read {
    /// A name used twice is 13 at 0.
    pub fn names(&self, text: &[u8]) -> Result<()> {
        let used = |at: &usize| self.names[..*at].iter().any(|name| same(text, *name, self.names[*at]));
        match (0..self.names.len()).find(used) {
            Some(_) if is("duplicate-refused-as-four") => Err(Refusal::nowhere(4)),
            Some(at) if is("duplicate-at-its-name") => Err(Refusal::at(13, self.names[at].start)),
            Some(_) if !is("duplicate-taken") => Err(Refusal::at(13, 0)),
            _ => Ok(()),
        }
    }

    fn rows(&self) -> usize {
        self.core.len() / ROW
    }
}

fn same(text: &[u8], a: Token, b: Token) -> bool {
    let (a, b) = (bytes(text, a), bytes(text, b));
    match fault() {
        "duplicates-by-length" => a.len() == b.len(),
        // and the quote before them
        "duplicates-by-8-bytes" => a.len() == b.len() && a.iter().zip(b).take(9).all(|(a, b)| a == b),
        _ => a == b,
    }
}

fn bytes(text: &[u8], token: Token) -> &[u8] {
    &text[token.start..token.end]
}

fn malformed(token: Token) -> Refusal {
    Refusal::at(13, token.start)
}

/// Reads from an offset to the end, with room for so many rows and records.
pub fn read(text: &[u8], at: usize, [rows, records]: [usize; 2], read: &mut Read) -> Result<()> {
    let mut reader = Reader { text, at, rows, records, read };
    reader.head()?;
    reader.declarations()?;
    let full = reader.read.rows() > rows;
    if full { Err(Refusal::nowhere(10)) } else { Ok(()) }
}

/// A form that is not complete.
struct Frame {
    kind: u32,
    arity: usize,
    start: usize,
    children: Vec<u32>,
}

struct Reader<'a> {
    text: &'a [u8],
    at: usize,
    rows: usize,
    records: usize,
    read: &'a mut Read,
}

impl Reader<'_> {
    /// Up to the word `declarations`. 2 is given behind the theory's parenthesis.
    fn head(&mut self) -> Result<()> {
        self.opens("hott-core")?;
        self.opens("format")?;
        let format = [self.numeral()?, self.numeral()?];
        self.expect(Kind::RParen)?;
        let second = is("format-0-2-taken") && self.is(format[0], "0") && self.is(format[1], "2");
        let format_fits = self.is_version(format) || second || is("format-version-not-compared");
        let two = match fault() {
            "core-version-with-offset" => Refusal::at(2, format[0].start),
            _ => Refusal::nowhere(2),
        };
        if !format_fits && is("version-behind-format") {
            return Err(two);
        }
        self.opens("theory")?;
        let theory = self.expect(Kind::String)?;
        let version = [self.numeral()?, self.numeral()?];
        let named = bytes(self.text, theory) == b"\"mltt-core\"" || is("theory-name-not-compared");
        let fits = format_fits && named && (self.is_version(version) || is("theory-version-not-compared"));
        if !fits && is("core-version-before-parenthesis") {
            return Err(two);
        }
        self.expect(Kind::RParen)?;
        if !fits {
            return Err(two);
        }
        self.opens("declarations")
    }

    fn declarations(&mut self) -> Result<()> {
        loop {
            let full = self.read.names.len() == self.records;
            self.refuse_if("core-nine-at-any-token", 9, full)?;
            let token = self.token()?;
            match token.kind {
                Kind::RParen => break,
                Kind::LParen if full && !is("core-nine-after-tag") => return Err(Refusal::nowhere(9)),
                Kind::LParen => self.declaration(full)?,
                _ => return Err(malformed(token)),
            }
        }
        self.expect(Kind::RParen)?;
        if !is("nothing-behind-the-end") {
            self.expect(Kind::End)?;
        }
        Ok(())
    }

    fn declaration(&mut self, full: bool) -> Result<()> {
        let tag = self.expect(Kind::Atom)?;
        let word = DECLARATION_KINDS.into_iter().find(|word| self.is(tag, word)).ok_or(malformed(tag))?;
        self.refuse_if("core-nine-after-tag", 9, full)?;
        let name = self.name()?;
        let (ty, frames) = self.term(0)?;
        let before = if is("core-frames-of-type-and-body") { frames } else { 0 };
        let body = if word == "postulate" { None } else { Some(self.term(before)?.0) };
        self.expect(Kind::RParen)?;
        let kind = kind_number(&DECLARATION_KINDS, word).expect("a kind");
        let none = if is("postulate-with-its-type-as-body") { ty } else { 0 };
        let [start, length] = self.name_span(name);
        self.read.declarations.extend([kind, start, length, ty, body.unwrap_or(none)]);
        self.read.names.push(name);
        if is("duplicate-before-the-end") { self.read.names(self.text) } else { Ok(()) }
    }

    /// What stands between the quotes, escapes as they are written.
    fn name_span(&self, name: Token) -> [u32; 2] {
        let quotes = usize::from(!is("name-with-quotes"));
        let (start, end) = (name.start + quotes, name.end - quotes);
        let mut length = end - start;
        if is("escapes-counted-out") {
            let mut rest = &self.text[start..end];
            while let Some(at) = rest.iter().position(|byte| *byte == b'\\') {
                length -= 1;
                rest = &rest[at + 2..];
            }
        }
        [start as u32, length as u32]
    }

    /// A type or body: its row, and the greatest number of frames that were open. `before` is 0 but for a mistake.
    fn term(&mut self, before: usize) -> Result<(u32, usize)> {
        let mut frames: Vec<Frame> = Vec::new();
        let mut greatest = 0;
        loop {
            let token = self.token()?;
            let mut row = match token.kind {
                Kind::Atom => {
                    let word = LEAVES.into_iter().find(|word| self.is(token, word)).ok_or(malformed(token))?;
                    self.store(word, &[], token.start)?
                }
                Kind::LParen => {
                    self.refuse_if("core-seven-before-tag", 7, frames.len() == 512)?;
                    let tag = self.expect(Kind::Atom)?;
                    match self.numeral_term(token, tag, frames.len())? {
                        Some(row) => row,
                        None => {
                            frames.push(self.frame(token, tag, before + frames.len() + 1)?);
                            greatest = greatest.max(frames.len());
                            continue;
                        }
                    }
                }
                _ => return Err(malformed(token)),
            };
            loop {
                let Some(frame) = frames.last_mut() else { return Ok((row, greatest)) };
                frame.children.push(row);
                if frame.children.len() < frame.arity {
                    break;
                }
                let Frame { kind, start, children, .. } = frames.pop().expect("the frame just filled");
                self.refuse_if("core-ten-before-parenthesis", 10, self.read.rows() == self.rows)?;
                self.expect(Kind::RParen)?;
                row = self.store(KINDS[kind as usize - 1], &children, start)?;
            }
        }
    }

    /// A var, global or universe behind its parenthesis; None for another tag.
    fn numeral_term(&mut self, parenthesis: Token, tag: Token, open: usize) -> Result<Option<u32>> {
        let words = ["var", "global", "universe"];
        let Some(word) = words.into_iter().find(|word| self.is(tag, word)) else {
            return Ok(None);
        };
        self.refuse_if("numeral-term-is-a-frame", 7, open == 512)?;
        let numeral = self.numeral()?;
        let value: Option<usize> =
            std::str::from_utf8(bytes(self.text, numeral)).ok().and_then(|text| text.parse().ok());
        let beyond = |most: usize| value.is_none_or(|value| value >= most);
        let refused = word == "var" && beyond(open) && is("var-out-of-range-refused")
            || word == "global" && beyond(self.read.names.len()) && is("global-out-of-range-refused");
        if refused {
            return Err(malformed(numeral));
        }
        self.refuse_if("core-ten-before-parenthesis", 10, self.read.rows() == self.rows)?;
        self.expect(Kind::RParen)?;
        let fields = match fault() {
            "numeral-by-value" if word != "universe" => [value.unwrap_or(0) as u32, 0],
            "numeral-by-its-ends" => [numeral.start as u32, numeral.end as u32],
            _ => [numeral.start as u32, (numeral.end - numeral.start) as u32],
        };
        self.store(word, &fields, offset(parenthesis, tag)).map(Some)
    }

    /// Opens the frame of this number.
    fn frame(&mut self, parenthesis: Token, tag: Token, number: usize) -> Result<Frame> {
        let arrow = is("arrow-taken-in-core-text") && self.is(tag, "arrow");
        let word = |form: &&Form| self.is(tag, form.word) || arrow && form.word == "pi";
        let form = FORMS.iter().find(word).ok_or(malformed(tag))?;
        let most = match fault() {
            "core-seven-one-early" => 511,
            "core-seven-one-late" => 513,
            _ => 512,
        };
        if number > most {
            if is("core-seven-at-the-argument") {
                self.token()?;
            }
            return Err(Refusal::nowhere(7));
        }
        let kind = kind_number(&KINDS, form.word).expect("a kind");
        Ok(Frame { kind, arity: form.arity, start: offset(parenthesis, tag), children: Vec::new() })
    }

    /// A completed term becomes a row, if there is room.
    fn store(&mut self, word: &str, fields: &[u32], start: usize) -> Result<u32> {
        let number = self.read.rows();
        let most = if is("core-ten-with-space-left") { self.rows.saturating_sub(1) } else { self.rows };
        if number >= most && !is("core-ten-after-reading") {
            return Err(Refusal::nowhere(10));
        }
        let mut row = [0; ROW];
        row[0] = kind_number(&KINDS, word).expect("a kind");
        row[1..=fields.len()].copy_from_slice(fields);
        row[OFFSET] = if is("core-row-without-offset") { 0 } else { start as u32 };
        self.read.core.extend(row);
        Ok(number as u32)
    }

    /// A class that only a mistake gives here.
    fn refuse_if(&self, mistake: &str, class: u8, met: bool) -> Result<()> {
        if met && is(mistake) { Err(Refusal::nowhere(class)) } else { Ok(()) }
    }

    fn token(&mut self) -> Result<Token> {
        let token = next_token(self.text, self.at).map_err(|offset| Refusal::at(13, offset))?;
        self.at = token.end;
        Ok(token)
    }

    fn expect(&mut self, kind: Kind) -> Result<Token> {
        if kind != Kind::String && is("string-refused-before-it-is-read") {
            let rest = self.text[self.at..].iter().position(|byte| !b" \t\n\r".contains(byte));
            let start = rest.map_or(self.text.len(), |inside| self.at + inside);
            if self.text.get(start) == Some(&b'"') {
                return Err(Refusal::at(13, start));
            }
        }
        let token = self.token()?;
        if token.kind == kind { Ok(token) } else { Err(malformed(token)) }
    }

    fn opens(&mut self, word: &str) -> Result<()> {
        self.expect(Kind::LParen)?;
        let tag = self.expect(Kind::Atom)?;
        if self.is(tag, word) { Ok(()) } else { Err(malformed(tag)) }
    }

    fn numeral(&mut self) -> Result<Token> {
        let token = self.expect(Kind::Atom)?;
        let atom = bytes(self.text, token);
        let leads = atom.len() > 1 && atom[0] == b'0' && !is("core-leading-zero");
        let long = atom.len() > 10 && is("core-numeral-of-32-bits");
        let digits = atom.iter().all(u8::is_ascii_digit) && !leads && !long;
        if digits { Ok(token) } else { Err(malformed(token)) }
    }

    fn name(&mut self) -> Result<Token> {
        let token = self.expect(Kind::String)?;
        let inside = &self.text[token.start + 1..token.end - 1];
        let letters = inside.iter().all(|byte| byte.is_ascii_alphanumeric() || *byte == b'_');
        let reserved = RESERVED.iter().any(|word| word.as_bytes() == inside);
        if is("names-are-identifiers") && !letters || is("reserved-names-refused") && reserved {
            return Err(malformed(token));
        }
        Ok(token)
    }

    fn is(&self, token: Token, word: &str) -> bool {
        bytes(self.text, token) == word.as_bytes()
    }

    fn is_version(&self, [major, minor]: [Token; 2]) -> bool {
        self.is(major, "0") && self.is(minor, "1")
    }
}

/// Where a form starts: at its parenthesis.
fn offset(parenthesis: Token, tag: Token) -> usize {
    if is("core-offset-of-the-tag") { tag.start } else { parenthesis.start }
}
