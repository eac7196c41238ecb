//! The same-core question over the words that two loads leave.
use super::{Module, leave, read_and_resolve, report};
use crate::loading::tables::{OFFSET, RECORD, ROW, Tables};
use common::fault::{fault, is};
use common::refusal::Refusal;

/// A module's words and the source that they refer to.
type Side<'a> = (&'a [u8], &'a Module);

pub fn same(sources: [&[u8]; 2], one: Tables<&mut [u32]>, other: Tables<&mut [u32]>, answer: &mut [u64; 3]) -> u8 {
    // the work area serves both
    let mut work = vec![0; one.work.len()];
    let mut lent = [one, Tables { work: &mut work, ..other }];
    let mut modules = [Module::default(), Module::default()];
    let loaded = [0, 1].map(|which| read_and_resolve(sources[which], &lent[which], &mut modules[which]));
    let refused = match loaded {
        [_, Err(refusal)] if is("second-refusal-first") => Some((2, refusal)),
        [Err(refusal), _] => Some((1, refusal)),
        [_, Err(refusal)] => Some((2, refusal)),
        _ => None,
    };
    let sides = || parting((sources[0], &modules[0]), (sources[1], &modules[1]));
    let part = refused.is_none().then(sides).flatten();
    let clears = refused.is_some() || part.is_some() && is("no-clears-the-tables");
    let untouched = match fault() {
        "first-tables-left" => refused.filter(|(which, _)| *which == 2).map(|_| 0),
        "second-tables-left" => refused.filter(|(which, _)| *which == 1).map(|_| 1),
        _ => None,
    };
    for which in [0, 1].into_iter().filter(|which| Some(*which) != untouched) {
        let left = if clears { Err(Refusal::nowhere(0)) } else { Ok(()) };
        leave(&mut lent[which], &modules[which], left);
    }
    match refused {
        Some((which, refusal)) => {
            report(Ok([which].into_iter().chain(refusal.offset).collect()), answer);
            refusal.class
        }
        None => report(Ok(part.into_iter().collect()), answer),
    }
}

/// The first place at which the declarations are not the same, or only one module has one.
fn parting(left: Side, right: Side) -> Option<usize> {
    let [m, n] = [left, right].map(|(_, module)| module.declarations.len() / RECORD);
    let differs = |at: &usize| declaration(left, *at) != declaration(right, *at);
    let place = match fault() {
        "parting-at-the-last" => (0..m.min(n)).rev().find(differs),
        _ => (0..m.min(n)).find(differs),
    };
    let shorter = (m != n && !is("counts-not-compared")).then_some(m.min(n));
    place.or(shorter).map(|place| place + usize::from(is("parting-from-1")))
}

/// What counts of a declaration: its kind, its name, its rows.
type Counts<'a> = (u32, Vec<u8>, Vec<(Vec<u32>, &'a [u8])>);

fn declaration<'a>((source, module): Side<'a>, at: usize) -> Counts<'a> {
    let end = |at: usize| {
        let [.., ty, body] = module.declarations[at * RECORD..][..RECORD] else { unreachable!("a record") };
        ty.max(body) as usize + 1
    };
    let [kind, start, length, ty, _] = module.declarations[at * RECORD..][..RECORD] else { unreachable!("a record") };
    let name = match fault() {
        "names-by-length" => vec![0; length as usize],
        "names-by-place" => [start, length].map(u32::to_be_bytes).concat(),
        _ => part(source, start, length).to_vec(),
    };
    let last = match fault() {
        "bodies-not-compared" => ty as usize + 1,
        "last-row-left-out" => end(at) - 1,
        _ => end(at),
    };
    let rows = at.checked_sub(1).map_or(0, end)..last;
    let kind = if is("kinds-not-compared") { kind.min(2) } else { kind };
    let row = |at: usize| {
        let (mut words, digits) = row(source, &module.core[at * ROW..][..ROW]);
        if is("arrow-unlike-a-pi") {
            words.push(u32::from(module.surface[at * ROW] == 25));
        }
        (words, digits)
    };
    (kind, name, rows.map(row).collect())
}

/// A universe, of kind 3, counts by its digits. Where a term starts does not count.
fn row<'a>(source: &'a [u8], words: &[u32]) -> (Vec<u32>, &'a [u8]) {
    let words = if is("offsets-compared") { words } else { &words[..OFFSET] };
    match (words[0], fault()) {
        (3, "digits-not-compared") => (vec![3], &[]),
        (3, "digits-by-place") => (words.to_vec(), &[]),
        (3, _) => (vec![3], part(source, words[1], words[2])),
        _ => (words.to_vec(), &[]),
    }
}

fn part(source: &[u8], start: u32, length: u32) -> &[u8] {
    &source[start as usize..][..length as usize]
}
