//! What a source needs, counted on the nodes that reading leaves.
use super::reading::{Read, Reader};
use super::resolving;
use crate::loading::tables::WORK;
use common::fault::{fault, is};
use common::refusal::Refusal;
use common::vocabulary::KINDS;

const LONGEST: usize = 65_535;
const MARK: &[u8] = b"\xef\xbb\xbf";
/// "It lends 1,024 rows to each row table, 256 declarations": as a mistake.
const ROWS: usize = 1_024;
const DECLARATIONS: usize = 256;

/// Rows, declarations and frames. The work area is 0 afterwards.
pub fn answer(source: &[u8], work: &mut [u32]) -> Result<Vec<usize>, Refusal> {
    let outcome = figures(source, work.len());
    let left = match &outcome {
        Ok(_) => is("storage-leaves-the-work-area"),
        Err(Refusal { class: 11, .. }) => is("storage-eleven-leaves-the-work-area"),
        Err(_) => is("storage-refusal-leaves-the-work-area"),
    };
    let cleared = if is("storage-clears-16384-words") { work.len().min(WORK) } else { work.len() };
    if !left {
        work[..cleared].fill(0);
    }
    match outcome {
        Err(Refusal { class, .. }) if is("storage-refuses-nowhere") => Err(Refusal::nowhere(class)),
        _ => outcome,
    }
}

fn figures(source: &[u8], work: usize) -> Result<Vec<usize>, Refusal> {
    whole(source, work)?;
    let at = if is("storage-skips-the-mark") && source.starts_with(MARK) { MARK.len() } else { 0 };
    let frames = match fault() {
        "storage-without-seven" => usize::MAX,
        "storage-seven-at-512" => 511,
        _ => 512,
    };
    let mut reader = Reader::unbounded(source, at, frames);
    reader.module()?;
    let read = reader.read;
    mistaken(source, &read)?;
    let (rows, declarations, frames) = (rows(&read), declarations(&read), greatest(&read));
    Ok(match fault() {
        "storage-figures-swapped" => vec![declarations, rows, frames],
        "storage-words-for-rows" => vec![rows * 8, declarations, frames],
        "storage-without-frames" => vec![rows, declarations],
        _ => vec![rows, declarations, frames],
    })
}

/// "11 is given as in loading", then 6, not UTF-8, the mark.
fn whole(source: &[u8], work: usize) -> Result<(), Refusal> {
    let least = if is("storage-eleven-at-16384") { WORK + 1 } else { WORK };
    let short = work < least && !is("storage-without-eleven");
    let eleven = if short { Err(Refusal::nowhere(11)) } else { Ok(()) };
    let six = if source.len() > LONGEST { Err(Refusal::nowhere(6)) } else { Ok(()) };
    let utf8 = std::str::from_utf8(source).map(|_| ()).map_err(|error| Refusal::at(1, error.valid_up_to()));
    match fault() {
        "storage-eleven-after-six" => six.and(eleven)?,
        "storage-without-six" => eleven?,
        "storage-utf8-before-six" => eleven.and(utf8).and(six)?,
        _ => eleven.and(six)?,
    }
    if !is("storage-without-utf8") {
        utf8?;
    }
    let marked = source.starts_with(MARK) && !is("storage-skips-the-mark");
    if marked { Err(Refusal::at(1, 0)) } else { Ok(()) }
}

/// Refusals that this call does not give.
fn mistaken(source: &[u8], read: &Read) -> Result<(), Refusal> {
    let full = |mistake: &str, class: u8, full: bool| {
        if full && is(mistake) { Err(Refusal::nowhere(class)) } else { Ok(()) }
    };
    full("storage-gives-eight", 8, read.nodes.len() > ROWS)?;
    full("storage-gives-nine", 9, read.declared.len() > DECLARATIONS)?;
    match resolving::resolve(source, read) {
        Err(refusal) if refusal.class == 4 && is("storage-gives-four") => Err(refusal),
        Err(refusal) if refusal.class == 5 && is("storage-gives-five") => Err(refusal),
        _ => Ok(()),
    }
}

fn rows(read: &Read) -> usize {
    let types = || read.declared.iter().map(|declared| size(read, declared.ty)).sum::<usize>();
    let all = read.nodes.len();
    match fault() {
        "storage-rows-without-types" => all - types(),
        "storage-rows-of-types-alone" => types(),
        "storage-forms-for-rows" => read.nodes.iter().filter(|node| !node.children.is_empty()).count(),
        "storage-a-row-more" => all + 1,
        _ => all,
    }
}

/// How many nodes a term has.
fn size(read: &Read, node: usize) -> usize {
    1 + read.nodes[node].children.iter().map(|child| size(read, *child)).sum::<usize>()
}

fn declarations(read: &Read) -> usize {
    match fault() {
        "storage-a-declaration-more" => read.declared.len() + 1,
        "storage-definitions-alone" => read.declared.iter().filter(|declared| declared.body.is_some()).count(),
        _ => read.declared.len(),
    }
}

fn greatest(read: &Read) -> usize {
    let of: Vec<usize> = (0..read.nodes.len()).fold(Vec::new(), |mut of, node| {
        of.push(frames(read, node, &of));
        of
    });
    let types = read.declared.iter().map(|declared| of[declared.ty]);
    let bodies = read.declared.iter().filter_map(|declared| Some(of[declared.body?]));
    let last = read.declared.last().map(|declared| of[declared.body.unwrap_or(declared.ty)]);
    let both = read.declared.iter().map(|declared| of[declared.ty] + declared.body.map_or(0, |body| of[body]));
    let greatest = match fault() {
        "storage-frames-of-the-last-term" => last,
        "storage-frames-of-types-alone" => types.max(),
        "storage-frames-of-bodies-alone" => bodies.max(),
        "storage-frames-of-type-and-body" => both.max(),
        "storage-frames-of-all-terms" => Some(types.chain(bodies).sum()),
        _ => types.chain(bodies).max(),
    };
    greatest.unwrap_or(0)
}

/// The frames of a node, from those of the nodes before it.
fn frames(read: &Read, node: usize, of: &[usize]) -> usize {
    let children = &read.nodes[node].children;
    let word = KINDS[read.nodes[node].kind as usize - 1];
    let inside = children.iter().map(|child| of[*child]);
    let inside = match fault() {
        "storage-frames-of-the-first-argument" => inside.take(1).max(),
        "storage-frames-of-the-last-argument" => inside.rev().take(1).max(),
        "storage-forms-for-frames" => Some(inside.sum()),
        _ => inside.max(),
    };
    let small = match word {
        "ref" | "universe" => is("storage-ref-is-a-frame"),
        _ => is("storage-leaf-is-a-frame"),
    };
    match inside {
        Some(inside) if word == "arrow" && is("storage-arrow-no-frame") => inside,
        Some(inside) if !children.is_empty() => inside + 1,
        _ => usize::from(small),
    }
}
