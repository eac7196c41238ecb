//! One call with tables full of rubbish, and what it leaves.
#[cfg(not(mock))]
use super::library;
#[cfg(mock)]
use super::mock as library;
#[cfg(mock)]
use super::mock::sameness;
#[cfg(not(mock))]
use super::sameness;
use super::tables::{Rubbish, Sizes, Tables};
use std::fmt;

/// Who reads the source. Both leave the same.
#[derive(Clone, Copy, PartialEq)]
pub enum Reader {
    /// With a list of open frames.
    Frames,
    /// As the grammar reads.
    Plain,
}

impl Reader {
    pub const ALL: [Self; 2] = [Self::Frames, Self::Plain];
}

impl fmt::Display for Reader {
    fn fmt(&self, formatter: &mut fmt::Formatter<'_>) -> fmt::Result {
        formatter.write_str(match self {
            Self::Frames => "the frame reader",
            Self::Plain => "the plain reader",
        })
    }
}

pub struct Loaded {
    /// 0 for acceptance.
    pub class: u8,
    /// How many values follow, and the values: rows and declarations, or an offset.
    pub answer: [u64; 3],
    pub tables: Tables<Vec<u32>>,
    /// The table beside which a word was changed that was not lent.
    pub outside: Option<&'static str>,
}

/// So many words before and behind each table are not lent and must stay.
pub const GUARD: usize = 8;
const GUARD_WORD: u32 = 0x5a5a_5a5a;

pub fn load(reader: Reader, source: &[u8], sizes: Sizes, rubbish: Rubbish) -> Loaded {
    lend(sizes, rubbish, |lent, answer| library::load(reader, source, lent, answer))
}

/// Reads alone: there is no core table.
pub fn read(reader: Reader, source: &[u8], sizes: Sizes, rubbish: Rubbish) -> Loaded {
    lend(Tables { core: 0, ..sizes }, rubbish, |lent, answer| library::read(reader, source, lent, answer))
}

/// Asks whether declaration i depends on j.
pub fn depends(source: &[u8], places: [usize; 2], sizes: Sizes, rubbish: Rubbish) -> Loaded {
    lend(sizes, rubbish, |lent, answer| library::depends(source, places, lent, answer))
}

/// Asks what binds the reference at a row.
pub fn binder(source: &[u8], row: usize, sizes: Sizes, rubbish: Rubbish) -> Loaded {
    lend(sizes, rubbish, |lent, answer| library::binder(source, row, lent, answer))
}

/// Asks for the module's name: the class, 0 for a name, and the answer. No table is lent.
pub fn head(source: &[u8]) -> (u8, [u64; 3]) {
    let mut answer = [u64::MAX; 3];
    let class = library::head(source, &mut answer);
    (class, answer)
}

/// What the question for the least storage leaves.
pub struct Needed {
    /// 0 for an answer.
    pub class: u8,
    /// How many values follow, and the values: rows, declarations and frames, or an offset.
    pub answer: [u64; 4],
    pub work: Vec<u32>,
    /// Whether a word beside the work area was changed.
    pub outside: bool,
}

/// Asks what a source needs, with a work area of so many words.
pub fn storage(source: &[u8], words: usize, rubbish: Rubbish) -> Needed {
    let mut work = guarded(rubbish, words);
    let mut answer = [u64::MAX; 4];
    let class = library::storage(source, lent(&mut work), &mut answer);
    Needed { class, answer, outside: is_changed_outside(&work), work: inside(work) }
}

/// Asks whether two sources leave the same core. The work area is the first set's; the answer stands with both.
pub fn same(sources: [&[u8]; 2], sizes: [Sizes; 2], rubbish: Rubbish) -> [Loaded; 2] {
    let mut second = None;
    let first = lend(sizes[0], rubbish, |one, answer| {
        let other = Tables { work: 0, ..sizes[1] };
        second.insert(lend(other, rubbish, |other, _| sameness::same(sources, one, other, answer))).class
    });
    let second = second.expect("the call lends both sets");
    [first, second]
}

/// Lends tables of these sizes to a call.
pub fn lend(sizes: Sizes, rubbish: Rubbish, call: impl FnOnce(Tables<&mut [u32]>, &mut [u64; 3]) -> u8) -> Loaded {
    let mut tables = sizes.map(|words| guarded(rubbish, words));
    let mut answer = [u64::MAX; 3];
    let class = call(tables.each_mut().map(|words| lent(words)), &mut answer);
    let outside = tables.named().into_iter().find(|(_, words)| is_changed_outside(words));
    let outside = outside.map(|(name, _)| name);
    Loaded { class, answer, tables: tables.map(inside), outside }
}

/// A table's words with guards around them.
fn guarded(rubbish: Rubbish, count: usize) -> Vec<u32> {
    let mut words = rubbish.words(count + 2 * GUARD);
    words[..GUARD].fill(GUARD_WORD);
    words[GUARD + count..].fill(GUARD_WORD);
    words
}

fn lent(words: &mut [u32]) -> &mut [u32] {
    let end = words.len() - GUARD;
    &mut words[GUARD..end]
}

/// Whether a guard is no longer what it was.
fn is_changed_outside(words: &[u32]) -> bool {
    let changed = |words: &[u32]| words.iter().any(|word| *word != GUARD_WORD);
    changed(&words[..GUARD]) || changed(&words[words.len() - GUARD..])
}

/// The words without their guards.
fn inside(mut words: Vec<u32>) -> Vec<u32> {
    words.truncate(words.len() - GUARD);
    words.drain(..GUARD);
    words
}
