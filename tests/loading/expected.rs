//! What documents 01 and 02 say that loading, and reading alone, leave: the Rust's module and answer, in their place the limits
//! 6 to 11, and beside them where terms start, which the Rust does not tell.
use super::order::{self, Declared, Limits, Reading, Span, Stored};
use super::tables::{OFFSET, RECORD, ROW, Sizes, WORK};
use answers::Read;
use answers::rows::{Row, core_rows, records, roots, surface_rows};
use common::escape::escape;
use common::refusal::Refusal;
use common::unicode::MARK;
use common::vocabulary::{DECLARATION_KINDS, KINDS, kind_number};
use hott_kernel::syntax::Module;

/// "6 source over 65,535 bytes"
const LONGEST: usize = 65_535;
const NO_LIMITS: Limits = Limits { rows: usize::MAX, declarations: usize::MAX };

/// The words of an accepted source's rows and records, without the 0 behind them.
#[derive(Clone, Default)]
pub struct Content {
    pub surface: Vec<u32>,
    pub core: Vec<u32>,
    pub declarations: Vec<u32>,
}

impl Content {
    /// Reading a source leaves no core rows, and reading a core text no surface rows.
    pub fn rows(&self) -> usize {
        self.surface.len().max(self.core.len()) / ROW
    }

    pub fn records(&self) -> usize {
        self.declarations.len() / RECORD
    }
}

/// A source with the Rust's answer. It serves any sizes of the tables.
pub struct Reference<'a> {
    pub source: &'a [u8],
    read: Result<Read, Refusal>,
    /// Reading with tables of any size, of a source that is UTF-8 without the mark.
    reading: Option<Reading>,
    /// What reading alone leaves.
    words: Result<Content, Refusal>,
    resolved: Result<Content, Refusal>,
}

impl<'a> Reference<'a> {
    pub fn new(source: &'a [u8]) -> Self {
        let read = answers::read(source);
        let reading = text(source).map(|text| order::read(text, NO_LIMITS));
        let module = read.as_ref().map_err(|refusal| *refusal);
        let whole = reading.as_ref().filter(|reading| reading.refusal.is_none());
        let words = module.map(|module| whole.map(|reading| words(source, module, reading)).unwrap_or_default());
        let resolved = told(&words).and_then(|words| {
            let core = answers::resolve(module?)?;
            Ok(whole.map(|reading| content(source, words, &core, reading)).unwrap_or_default())
        });
        let reference = Self { source, read, reading, words, resolved };
        if let Some(reading) = &reference.reading {
            reference.check(reading);
        }
        reference
    }

    /// The words of a source that the Rust accepts; none where it has more open forms than document 01 lets.
    pub fn accepted(&self) -> Option<&Content> {
        self.resolved.as_ref().ok()
    }

    /// The Rust's module of a source that it reads, whatever its names are.
    pub fn module(&self) -> Option<&Read> {
        self.read.as_ref().ok()
    }

    /// How many rows and declarations are wanted before reading ends, however it ends.
    pub fn need(&self) -> Limits {
        let counts = |reading: &Reading| Limits { rows: reading.rows.len(), declarations: reading.opened };
        self.reading.as_ref().map_or(Limits { rows: 0, declarations: 0 }, counts)
    }

    /// Whether reading gets to the end of the source: more tokens may follow.
    pub fn is_open(&self) -> bool {
        let end = Refusal::at(1, self.source.len());
        self.reading.as_ref().is_some_and(|reading| reading.refusal.is_none_or(|refusal| refusal == end))
    }

    /// What loading answers.
    pub fn expected(&self, sizes: Sizes) -> Result<&Content, Refusal> {
        self.both(sizes)[1]
    }

    /// What reading alone, which looks at no name and has no core table, and loading answer: "Order: 11; 6; not UTF-8; leading
    /// EF BB BF; then 1, 2, 3, 7, 8, 9 by reading order; 10; then .. 4, .. 5".
    pub fn both(&self, sizes: Sizes) -> [Result<&Content, Refusal>; 2] {
        let read = self.limits(sizes).and(told(&self.words));
        let loaded = read.and_then(|words| {
            if words.rows() > sizes.core / ROW { Err(Refusal::nowhere(10)) } else { told(&self.resolved) }
        });
        [read, loaded]
    }

    /// The limits that are met before reading ends.
    fn limits(&self, sizes: Sizes) -> Result<(), Refusal> {
        if sizes.work < WORK {
            return Err(Refusal::nowhere(11));
        }
        if self.source.len() > LONGEST {
            return Err(Refusal::nowhere(6));
        }
        if let Some(text) = text(self.source) {
            let limits = Limits { rows: sizes.surface / ROW, declarations: sizes.declarations / RECORD };
            let reading = order::read(text, limits);
            self.check(&reading);
            if let Some(limit) = reading.refusal.filter(|refusal| refusal.class > 5) {
                return Err(limit);
            }
        }
        Ok(())
    }

    /// Where no limit is met, the reading order and the Rust must say the same.
    fn check(&self, reading: &Reading) {
        if reading.refusal.is_none_or(|refusal| refusal.class <= 5) {
            let rust = self.read.as_ref().err().copied();
            assert_eq!(reading.refusal, rust, "reading order and Rust on {}", escape(self.source));
        }
    }
}

fn told(content: &Result<Content, Refusal>) -> Result<&Content, Refusal> {
    content.as_ref().map_err(|refusal| *refusal)
}

/// The text of a source that is UTF-8 and does not start with the mark.
fn text(source: &[u8]) -> Option<&str> {
    std::str::from_utf8(source).ok().filter(|_| !source.starts_with(MARK))
}

/// The words that reading leaves. A declaration's kind is the reading order's: `content` holds it to the Rust's.
fn words(source: &[u8], read: &Read, reading: &Reading) -> Content {
    let surface = surface_rows(read);
    assert_eq!(surface.len(), reading.rows.len(), "rows");
    let mut words = Content::default();
    for (row, Stored { start, span }) in surface.iter().zip(&reading.rows) {
        let held = row.detail.as_ref().or(row.binder.as_ref());
        assert_eq!(held.map(String::as_bytes), span.clone().map(|span| &source[span]), "span of {}", row.word);
        words.surface.extend(row_words(row, span.as_ref().map(numbers), *start));
    }
    for (Declared { kind, name }, roots) in reading.declared.iter().zip(roots(read)) {
        words.declarations.push(*kind);
        words.declarations.extend(numbers(name));
        words.declarations.extend([roots[0], roots.get(1).copied().unwrap_or(0)].map(|row| row as u32));
    }
    words
}

/// With core rows. The Rust's records must be those that were read.
fn content(source: &[u8], words: &Content, core: &Module, reading: &Reading) -> Content {
    let mut content = words.clone();
    let rows = core_rows(core);
    assert_eq!(rows.len(), reading.rows.len(), "core rows");
    for (row, Stored { start, span }) in rows.iter().zip(&reading.rows) {
        let field = match row.word {
            "var" | "global" => row.detail.as_ref().map(|count| vec![count.parse().expect("a count")]),
            "universe" => span.as_ref().map(numbers),
            _ => None,
        };
        content.core.extend(row_words(row, field, *start));
    }
    let records = records(core);
    assert_eq!(records.len(), content.records(), "records");
    for (record, words) in records.iter().zip(content.declarations.chunks_exact(RECORD)) {
        let kind = kind_number(&DECLARATION_KINDS, record.word).expect("a declaration's kind");
        assert_eq!([kind, record.ty as u32, record.body.unwrap_or(0) as u32], [words[0], words[3], words[4]], "record");
        assert_eq!(record.name.as_bytes(), &source[words[1] as usize..][..words[2] as usize], "name");
    }
    content
}

/// Start and length.
fn numbers(span: &Span) -> Vec<u32> {
    vec![span.start as u32, span.len() as u32]
}

/// "A row is eight 32-bit words: kind, then fields, unused words 0." Seven are the Rust's. "The comparison with the Rust
/// leaves [the eighth] word aside": it is where the recursive reader found the term's first byte, in both tables.
fn row_words(row: &Row<usize>, fields: Option<Vec<u32>>, start: usize) -> [u32; ROW] {
    let kind = kind_number(&KINDS, row.word).expect("a row's kind");
    let children = row.children.iter().map(|child| *child as u32);
    let mut words = [0; ROW];
    for (word, field) in words.iter_mut().zip([kind].into_iter().chain(fields.into_iter().flatten()).chain(children)) {
        *word = field;
    }
    words[OFFSET] = start as u32;
    words
}
