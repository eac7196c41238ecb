//! One call of a reader or of printing against what document 02 expects: the answer, every word of every table, and
//! every byte of the text buffer.
use super::expected::Reference;
use super::station::{Printed, Reader, print, read};
use crate::loading::check::{answer_numbers, compare_answers, compare_tables};
use crate::loading::expected::{self, Content};
use crate::loading::station::Loaded;
use crate::loading::tables::{Rubbish, Sizes};
use common::refusal::Refusal;
use common::tally::{Mismatch, differ};

/// Reads a core text with tables of these sizes, full of rubbish: what the call leaves, once it is what was expected.
pub fn read_out(reference: &Reference, reader: Reader, sizes: Sizes, rubbish: Rubbish) -> Result<Loaded, Mismatch> {
    let loaded = read(reader, reference.text, sizes, rubbish);
    let expected = reference.expected(reader, sizes);
    let nothing = Content::default();
    let mismatch = compare_answers(&expected, &loaded).or_else(|| {
        let content = expected.unwrap_or(&nothing);
        compare_tables(content, &loaded)
    });
    told(mismatch, loaded, || format!("{reader:?} with {sizes:?}"))
}

/// A source and the Rust's print of it, if it is accepted.
pub struct Source<'a> {
    pub loading: expected::Reference<'a>,
    pub text: Option<Vec<u8>>,
}

impl<'a> Source<'a> {
    pub fn new(source: &'a [u8]) -> Self {
        let module = answers::read(source).and_then(|read| answers::resolve(&read));
        let text = module.ok().map(|module| {
            let text = answers::print(&module);
            // "unless the Rust refuses that text": it never does, and reads the module that was printed
            assert_eq!(answers::read_canonical(&text), Ok(module), "what the Rust prints and reads");
            text
        });
        Self { loading: expected::Reference::new(source), text }
    }

    /// "printing refuses only after a complete load"; "14: text buffer shorter than the text, after all else".
    pub fn expected(&self, sizes: Sizes, length: usize) -> Result<(&Content, &[u8]), Refusal> {
        let content = self.loading.expected(sizes)?;
        let text = self.text.as_ref().expect("an accepted source is printed");
        if text.len() > length { Err(Refusal::nowhere(14)) } else { Ok((content, text)) }
    }
}

/// Prints a source into a buffer of so many bytes, full of rubbish: what the call leaves, once it is what was expected.
pub fn printed(source: &Source, sizes: Sizes, length: usize, rubbish: Rubbish) -> Result<Printed, Mismatch> {
    let printed = print(source.loading.source, sizes, length, rubbish);
    let expected = source.expected(sizes, length);
    let numbers = match expected {
        Ok((_, text)) => (0, [1, text.len() as u64, 0]),
        Err(refusal) => answer_numbers(&Err(refusal)),
    };
    let nothing = (&Content::default(), &[][..]);
    let (content, text) = expected.unwrap_or(nothing);
    let found = (printed.loaded.class, printed.loaded.answer);
    let mismatch = differ("answer", format!("{numbers:?}"), format!("{found:?}"))
        .or_else(|| compare_tables(content, &printed.loaded))
        .or_else(|| compare_text(text, &printed.text))
        .or_else(|| differ("bytes beside the text buffer changed", false, printed.outside));
    told(mismatch, printed, || format!("printing with {sizes:?} into {length} bytes"))
}

/// The buffer holds the text, and 0 behind it.
fn compare_text(expected: &[u8], found: &[u8]) -> Option<Mismatch> {
    let byte = |at: usize| expected.get(at).copied().unwrap_or(0);
    let at = (0..found.len()).find(|at| found[*at] != byte(*at))?;
    let rest = |bytes: &[u8]| String::from_utf8_lossy(bytes.get(at..).unwrap_or_default()).into_owned();
    let length = found.len().min(expected.len().max(at + 40));
    Some(Mismatch { what: format!("text from byte {at}"), expected: rest(expected), found: rest(&found[..length]) })
}

/// What a call left, or the mismatch with how it was called.
fn told<T>(mismatch: Option<Mismatch>, left: T, how: impl FnOnce() -> String) -> Result<T, Mismatch> {
    match mismatch {
        None => Ok(left),
        Some(mismatch) => Err(Mismatch { what: format!("{}, {}", mismatch.what, how()), ..mismatch }),
    }
}
