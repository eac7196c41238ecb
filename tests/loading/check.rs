//! Calls of loading, and of reading alone, against what document 01 expects: the answer, and every word of every table.
use super::expected::{Content, Reference};
use super::station::{Loaded, Reader, load, read};
use super::tables::{RECORD, ROW, Rubbish, Sizes};
use common::refusal::Refusal;
use common::tally::{Mismatch, Tally, differ};

/// Reads and loads with tables of these sizes, full of rubbish, by each reader, and counts each of these calls. What loading
/// leaves, once it is what was expected by every reader.
pub fn loaded(reference: &Reference, sizes: Sizes, rubbish: Rubbish, tally: &mut Tally) -> Option<Loaded> {
    let [alone, whole] = reference.both(sizes);
    let mut right = |what: &str, reader: Reader, expected, found: Loaded| {
        let mismatch = compare(expected, &found);
        let how = |mismatch: Mismatch| Mismatch {
            what: format!("{} {what} {reader} with {sizes:?}", mismatch.what),
            ..mismatch
        };
        let is_right = mismatch.is_none();
        tally.count(reference.source, mismatch.map(how));
        is_right.then_some(found)
    };
    let [frames, plain] = Reader::ALL.map(|reader| {
        right("reading by", reader, alone, read(reader, reference.source, sizes, rubbish));
        right("loading by", reader, whole, load(reader, reference.source, sizes, rubbish))
    });
    frames.filter(|_| plain.is_some())
}

fn compare(expected: Result<&Content, Refusal>, found: &Loaded) -> Option<Mismatch> {
    let nothing = Content::default();
    compare_answers(&expected, found).or_else(|| compare_tables(expected.unwrap_or(&nothing), found))
}

/// The class, 0 for acceptance, and the numbers of an answer to loading.
pub fn answer_numbers(expected: &Result<&Content, Refusal>) -> (u8, [u64; 3]) {
    match expected {
        Ok(content) => (0, [2, content.rows() as u64, content.records() as u64]),
        Err(Refusal { class, offset: Some(offset) }) => (*class, [1, *offset as u64, 0]),
        Err(Refusal { class, offset: None }) => (*class, [0, 0, 0]),
    }
}

pub fn compare_answers(expected: &Result<&Content, Refusal>, loaded: &Loaded) -> Option<Mismatch> {
    let (class, answer) = answer_numbers(expected);
    differ("answer", format!("{class} {answer:?}"), format!("{} {:?}", loaded.class, loaded.answer))
}

pub fn compare_tables(expected: &Content, loaded: &Loaded) -> Option<Mismatch> {
    let tables = &loaded.tables;
    let outside = || differ("words beside a table", "", loaded.outside.unwrap_or_default());
    compare_words("surface", ROW, &expected.surface, &tables.surface)
        .or_else(|| compare_words("core", ROW, &expected.core, &tables.core))
        .or_else(|| compare_words("declaration", RECORD, &expected.declarations, &tables.declarations))
        .or_else(|| compare_words("work", 1, &[], &tables.work))
        .or_else(outside)
}

/// A table holds the expected words, and 0 behind them.
fn compare_words(table: &str, width: usize, expected: &[u32], found: &[u32]) -> Option<Mismatch> {
    if found.len() >= expected.len() {
        let (used, unused) = found.split_at(expected.len());
        if used == expected && unused.iter().fold(0, |all, word| all | word) == 0 {
            return None;
        }
    }
    let word = |at: usize| expected.get(at).copied().unwrap_or(0);
    let at = (0..found.len()).find(|at| found[*at] != word(*at)).unwrap_or(found.len());
    let found = found.get(at).map_or(String::from("none"), u32::to_string);
    differ(&format!("{table} word {at} ({} {})", at / width, at % width), word(at).to_string(), found)
}
