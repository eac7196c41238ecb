//! A loader written from document 01 alone, in the place of the Rattle library: to try the tests before it exists, and
//! to see them fail by the mistakes of `common::fault`.
mod alone;
mod binder;
mod dependence;
pub mod head;
pub mod listing;
mod plain;
mod reading;
mod resolving;
pub mod sameness;
mod storage;
mod words;

use super::station;
use super::tables::{RECORD, ROW, Tables, WORK};
use crate::faults;
pub use alone::read;
use common::fault::is;
use common::refusal::Refusal;
use reading::{Read, Reader};

/// The words of the rows and records.
#[derive(Default)]
struct Module {
    surface: Vec<u32>,
    core: Vec<u32>,
    declarations: Vec<u32>,
}

pub fn load(reader: station::Reader, source: &[u8], lent: Tables<&mut [u32]>, answer: &mut [u64; 3]) -> u8 {
    let mut module = Module::default();
    let outcome = match common::fault::fault() {
        "always-1" => Err(Refusal::at(1, 0)),
        "always-the-head" => Ok(()),
        _ => resolved(reader, source, &lent, &mut module),
    };
    told(reader, lent, &module, outcome, answer)
}

/// Leaves what a call leaves, and reports.
fn told(
    reader: station::Reader,
    mut lent: Tables<&mut [u32]>,
    module: &Module,
    outcome: Result<(), Refusal>,
    answer: &mut [u64; 3],
) -> u8 {
    plain::keep(reader, &mut lent, outcome);
    leave(&mut lent, module, outcome);
    let counts = |()| {
        let rows = module.surface.len() / ROW + usize::from(is("invented-row-count"));
        let records = module.declarations.len() / RECORD + usize::from(is("invented-declaration-count"));
        vec![rows, records]
    };
    report(outcome.map(counts), answer)
}

pub fn depends(source: &[u8], places: [usize; 2], mut lent: Tables<&mut [u32]>, answer: &mut [u64; 3]) -> u8 {
    let mut module = Module::default();
    let loaded = read_and_resolve(source, &lent, &mut module);
    let outcome = match loaded {
        Err(_) if is("twelve-before-loading") && places.contains(&usize::MAX) => Err(Refusal::nowhere(12)),
        _ => loaded.and_then(|()| dependence::answer(&module, places)),
    };
    let left = match outcome {
        Err(Refusal { class: 12, .. }) if is("tables-left-after-twelve") => Ok(()),
        Ok(Some(_)) if is("yes-clears-the-tables") => Err(Refusal::nowhere(0)),
        _ => outcome.map(|_| ()),
    };
    leave(&mut lent, &module, left);
    if outcome.is_ok() && is("marks-left-in-the-work-area") {
        lent.work[places[1]] = 1;
    }
    report(outcome.map(|row| row.into_iter().collect()), answer)
}

pub fn binder(source: &[u8], row: usize, mut lent: Tables<&mut [u32]>, answer: &mut [u64; 3]) -> u8 {
    let mut module = Module::default();
    let loaded = read_and_resolve(source, &lent, &mut module);
    let outcome = match loaded {
        Err(_) if is("binder-twelve-before-loading") && row == usize::MAX => Err(Refusal::nowhere(12)),
        _ => loaded.and_then(|()| binder::answer(source, &module, row)),
    };
    let left = match &outcome {
        Err(Refusal { class: 12, .. }) if is("binder-twelve-leaves-the-tables") => Ok(()),
        Ok(_) if is("binder-clears-the-tables") => Err(Refusal::nowhere(0)),
        Ok(_) => Ok(()),
        Err(refusal) => Err(*refusal),
    };
    leave(&mut lent, &module, left);
    if outcome.is_ok() && is("binder-leaves-the-work-area") {
        lent.work[0] = 1;
    }
    report(outcome, answer)
}

pub fn head(source: &[u8], answer: &mut [u64; 3]) -> u8 {
    report(head::answer(source), answer)
}

pub fn storage(source: &[u8], work: &mut [u32], answer: &mut [u64; 4]) -> u8 {
    report(storage::answer(source, work), answer)
}

/// Writes the values of an answer, and gives its class.
pub fn report<const N: usize>(outcome: Result<Vec<usize>, Refusal>, answer: &mut [u64; N]) -> u8 {
    let (class, values) = match outcome {
        Ok(values) => (0, values),
        Err(Refusal { class, offset }) => (class, offset.into_iter().collect()),
    };
    if !is("unused-values-left") {
        *answer = [0; N];
    }
    answer[0] = values.len() as u64;
    answer[1..].iter_mut().zip(values).for_each(|(number, value)| *number = value as u64);
    class
}

/// As all questions load: by frames.
fn read_and_resolve(source: &[u8], lent: &Tables<&mut [u32]>, module: &mut Module) -> Result<(), Refusal> {
    resolved(station::Reader::Frames, source, lent, module)
}

/// "Order: 11; 6; not UTF-8; leading EF BB BF; then .. by reading order".
fn read_whole(reader: station::Reader, source: &[u8], lent: &Tables<&mut [u32]>) -> Result<Read, Refusal> {
    let least = match common::fault::fault() {
        "eleven-at-16384" => WORK + 1,
        "eleven-under-16383" => WORK - 1,
        _ => WORK,
    };
    let short = lent.work.len() < least && !plain::is(reader, "plain-without-eleven");
    let eleven = if short { Err(Refusal::nowhere(11)) } else { Ok(()) };
    if !is("eleven-after-six") && !is("eleven-only-for-forms") {
        eleven?;
    }
    let longest = match common::fault::fault() {
        "six-at-65535" => 65_534,
        "six-over-65536" => 65_536,
        _ => 65_535,
    };
    let six = if source.len() > longest { Err(Refusal::nowhere(6)) } else { Ok(()) };
    if !is("six-after-utf8") {
        six?;
    }
    if is("eleven-after-six") {
        eleven?;
    }
    let valid = faults::valid_beginning(source);
    let utf8 = if valid < source.len() { Err(Refusal::at(1, valid)) } else { Ok(()) };
    let marked = faults::starts_with_mark(source).unwrap_or(source.starts_with(b"\xef\xbb\xbf"));
    let mark = if marked && !is("mark-skipped") { Err(Refusal::at(1, 0)) } else { Ok(()) };
    if is("mark-before-utf8") {
        mark?;
    }
    if !is("utf8-after-reading") && !is("utf8-not-in-comments") {
        utf8?;
    }
    six?;
    mark?;
    let mut reader = Reader::new(reader, source, lent, if marked { 3 } else { 0 });
    reader.module()?;
    if is("eleven-only-for-forms") && reader.read.forms {
        eleven?;
    }
    if is("utf8-after-reading") {
        utf8?;
    }
    Ok(reader.read)
}

/// "10; then declarations in order".
fn resolved(
    reader: station::Reader,
    source: &[u8],
    lent: &Tables<&mut [u32]>,
    module: &mut Module,
) -> Result<(), Refusal> {
    let read = read_whole(reader, source, lent)?;
    let core_rows = lent.core.len() / ROW;
    let rows = read.nodes.len();
    let full = match common::fault::fault() {
        "ten-by-surface-size" => lent.surface.len() / ROW > core_rows,
        "ten-if-equal" => rows >= core_rows,
        _ => rows > core_rows,
    };
    if full && !is("ten-after-names") {
        return Err(Refusal::nowhere(10));
    }
    module.surface = words::surface(&read);
    module.declarations = words::records(&read);
    module.core = words::core(&read, &resolving::resolve(source, &read)?);
    if full { Err(Refusal::nowhere(10)) } else { Ok(()) }
}

/// "After every refusal .. all 0; after acceptance unused rows, unused records, words left over .. and the work area".
fn leave(lent: &mut Tables<&mut [u32]>, module: &Module, outcome: Result<(), Refusal>) {
    let class = outcome.err().map_or(0, |refusal| refusal.class);
    let untouched = match common::fault::fault() {
        "tables-untouched" => true,
        "refused-not-cleared" => class != 0,
        "eleven-not-cleared" => class == 11,
        "six-not-cleared" => class == 6,
        _ => false,
    };
    if untouched {
        return;
    }
    let stays = outcome.is_ok() || class == 5 && is("rows-left-after-names");
    let words = |words| if stays { words } else { &[][..] };
    fill(lent.surface, words(&module.surface), ROW);
    fill(lent.core, words(&module.core), ROW);
    fill(lent.declarations, words(&module.declarations), RECORD);
    if is("work-not-cleared") {
        return;
    }
    let cleared = if is("work-cleared-to-16384") { lent.work.len().min(WORK) } else { lent.work.len() };
    lent.work[..cleared].fill(0);
}

fn fill(lent: &mut [u32], words: &[u32], width: usize) {
    let used = words.len().min(lent.len());
    lent[..used].copy_from_slice(&words[..used]);
    let whole = lent.len() / width * width;
    let cleared = match common::fault::fault() {
        "unused-rows-not-cleared" => whole..lent.len(),
        "leftover-words-not-cleared" => used.min(whole)..whole,
        _ => used..lent.len(),
    };
    lent[cleared].fill(0);
}
