//! What document 02 says that reading a core text leaves: the Rust's answer and module, in their place the limits 7, 9,
//! 10 and 11, and beside them where terms, names and numerals stand, which the Rust does not tell.
use super::order::{self, Reading};
use super::station::Reader;
use crate::loading::expected::Content;
use crate::loading::order::{Limits, Span};
use crate::loading::tables::{OFFSET, RECORD, ROW, Sizes, WORK};
use answers::rows::{core_rows, records};
use common::escape::escape;
use common::refusal::Refusal;
use common::unicode::MARK;
use common::vocabulary::{DECLARATION_KINDS, KINDS, kind_number};
use hott_kernel::syntax::Module;

const NO_LIMITS: Limits = Limits { rows: usize::MAX, declarations: usize::MAX };
const NOTHING: Limits = Limits { rows: 0, declarations: 0 };

/// A core text with the Rust's answers. It serves any sizes of the tables.
pub struct Reference<'a> {
    pub text: &'a [u8],
    /// Reading with tables of any size, of a text that is UTF-8 without the mark.
    reading: Option<Reading>,
    any: Result<Content, Refusal>,
    /// What is said of it as a text that must be its own print.
    canonical: Option<Refusal>,
}

impl<'a> Reference<'a> {
    pub fn new(text: &'a [u8]) -> Self {
        let reading = readable(text).map(|text| order::read(text, NO_LIMITS));
        let any = answers::read_core(text).map(|module| {
            let whole = reading.as_ref().filter(|reading| reading.refusal.is_none());
            whole.map(|reading| content(text, &module, reading)).unwrap_or_default()
        });
        let canonical = answers::read_canonical(text).err();
        let refused = any.as_ref().err().copied();
        assert!(refused.is_none() || canonical == refused, "both readers of the Rust on {}", escape(text));
        let reference = Self { text, reading, any, canonical };
        if let Some(reading) = &reference.reading {
            reference.check(reading);
        }
        reference
    }

    /// How many rows and declarations are wanted before reading ends, however it ends.
    pub fn need(&self) -> Limits {
        let counts = |reading: &Reading| Limits { rows: reading.rows.len(), declarations: reading.opened };
        self.reading.as_ref().map_or(NOTHING, counts)
    }

    /// Whether reading gets to the end of the text: more tokens may follow.
    pub fn is_open(&self) -> bool {
        let end = Refusal::at(13, self.text.len());
        self.reading.as_ref().is_some_and(|reading| reading.refusal.is_none_or(|refusal| refusal == end))
    }

    /// "11, then 6, come first, then 2 and 13 in the Rust's own order, with 7, 9 and 10 where its reading meets them".
    /// No text here is long enough for 6.
    pub fn expected(&self, reader: Reader, sizes: Sizes) -> Result<&Content, Refusal> {
        if sizes.work < WORK {
            return Err(Refusal::nowhere(11));
        }
        if let Some(text) = readable(self.text) {
            let limits = Limits { rows: sizes.core / ROW, declarations: sizes.declarations / RECORD };
            let reading = order::read(text, limits);
            self.check(&reading);
            if let Some(limit) = reading.refusal.filter(is_limit) {
                return Err(limit);
            }
        }
        let content = self.any.as_ref().map_err(|refusal| *refusal)?;
        match self.canonical.filter(|_| reader == Reader::Canonical) {
            Some(refusal) => Err(refusal),
            None => Ok(content),
        }
    }

    /// Where no limit is met, the reading order and the Rust must say the same.
    fn check(&self, reading: &Reading) {
        if !reading.refusal.as_ref().is_some_and(is_limit) {
            let rust = self.any.as_ref().err().copied();
            assert_eq!(reading.refusal, rust, "reading order and Rust on {}", escape(self.text));
        }
    }
}

fn is_limit(refusal: &Refusal) -> bool {
    [7, 9, 10].contains(&refusal.class)
}

/// The text, if it is UTF-8 and does not start with the mark.
fn readable(text: &[u8]) -> Option<&str> {
    std::str::from_utf8(text).ok().filter(|_| !text.starts_with(MARK))
}

/// The words of rows and records as read; the Rust's rows must have the same kinds, children and numerals, and its
/// declarations the same kinds, names and rows.
fn content(text: &[u8], module: &Module, reading: &Reading) -> Content {
    let (rows, declared) = (core_rows(module), records(module));
    assert_eq!((rows.len(), declared.len()), (reading.rows.len(), reading.declared.len()), "rows and records");
    let part = |span: &Span| String::from_utf8_lossy(&text[span.clone()]).into_owned();
    let mut content = Content::default();
    for (row, stored) in rows.iter().zip(&reading.rows) {
        let digits = stored.numeral.as_ref().map(part);
        let read = (stored.word, &stored.children, &digits);
        assert_eq!(read, (row.word, &row.children, &row.detail), "a row of {}", escape(text));
        let children = stored.children.iter().map(|child| *child as u32);
        let fields: Vec<u32> = stored.numeral.iter().flat_map(numbers).chain(children).collect();
        content.core.extend(row_words(stored.word, &fields, stored.start));
    }
    for (record, read) in declared.iter().zip(&reading.declared) {
        let name = unescaped(&part(&read.name));
        let found = (read.word, name.as_str(), read.ty, read.body);
        assert_eq!(found, (record.word, record.name, record.ty, record.body), "a record of {}", escape(text));
        let kind = kind_number(&DECLARATION_KINDS, read.word).expect("a declaration's kind");
        content.declarations.push(kind);
        content.declarations.extend(numbers(&read.name));
        content.declarations.extend([read.ty as u32, read.body.unwrap_or(0) as u32]);
    }
    content
}

/// Start and length.
fn numbers(span: &Span) -> [u32; 2] {
    [span.start as u32, span.len() as u32]
}

/// The kind, the fields, 0, and the term's offset.
fn row_words(word: &str, fields: &[u32], start: usize) -> [u32; ROW] {
    let mut words = [0; ROW];
    words[0] = kind_number(&KINDS, word).expect("a row's kind");
    words[1..=fields.len()].copy_from_slice(fields);
    words[OFFSET] = start as u32;
    words
}

/// What a name stands for: a backslash before each quote and backslash is left out.
fn unescaped(raw: &str) -> String {
    let mut name = String::new();
    let mut characters = raw.chars();
    while let Some(character) = characters.next() {
        name.extend(if character == '\\' { characters.next() } else { Some(character) });
    }
    name
}
