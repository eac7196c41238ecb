//! The dependence question over the words that loading leaves: from a declaration's rows down to what they name, each place
//! looked at once.
use super::Module;
use crate::loading::tables::{RECORD, ROW};
use common::fault::{fault, is};
use common::refusal::Refusal;
use std::ops::Range;

/// The first row that shows that declaration i depends on j, None for a no, or 12.
pub fn answer(module: &Module, [i, j]: [usize; 2]) -> Result<Option<usize>, Refusal> {
    let count = module.declarations.len() / RECORD;
    let [i, j] = match fault() {
        "places-swapped" => [j, i],
        "places-of-32-bits" => [i as u32 as usize, j as u32 as usize],
        "later-place-is-none" if j > i => [i, count],
        _ => [i, j],
    };
    if i >= count || j >= count && !is("only-the-first-place-tested") {
        return Err(Refusal::nowhere(12));
    }
    let mut search = Search { module, j, known: vec![None; count] };
    let mut rows = rows_of(module, i);
    let found = rows.clone().find(|row| search.leads(*row));
    let [ty, body] = parts(module, i);
    Ok(match fault() {
        "own-place-is-a-yes" if i == j => Some(rows.start),
        "row-of-any-declaration" => found.and_then(|_| (0..module.core.len() / ROW).find(|row| search.leads(*row))),
        "row-that-shows-another" => found.and_then(|_| rows.find(|row| named(module, *row).is_some())),
        "row-that-comes-last" => rows.rfind(|row| search.leads(*row)),
        "row-that-names-it" => rows.find(|row| named(module, *row) == Some(j)).or(found),
        "row-of-the-body-first" => body.chain(ty).find(|row| search.leads(*row)),
        "row-of-a-part-from-behind" => ty.rev().chain(body.rev()).find(|row| search.leads(*row)),
        _ => found,
    })
}

/// The place that a global row names.
fn named(module: &Module, row: usize) -> Option<usize> {
    (module.core[row * ROW] == 2).then(|| module.core[row * ROW + 1] as usize)
}

/// The search for what shows j.
struct Search<'a> {
    module: &'a Module,
    j: usize,
    /// Of the places that were looked at, whether they show j.
    known: Vec<Option<bool>>,
}

impl Search<'_> {
    /// Whether a row names a place that shows j.
    fn leads(&mut self, row: usize) -> bool {
        named(self.module, row).is_some_and(|place| self.shows(place))
    }

    fn shows(&mut self, k: usize) -> bool {
        if let Some(known) = self.known[k] {
            return known;
        }
        let (module, j) = (self.module, self.j);
        let mut rows = on_the_way(module, k);
        let names_j = |row: usize| named(module, row) == Some(j);
        let shows = match fault() {
            "direct-mention-only" => k == j,
            "one-step-only" => k == j || rows.any(names_j),
            "itself-not-shown" => rows.any(|row| names_j(row) || self.leads(row)),
            "places-over-255-not-followed" if k > 255 => k == j,
            _ => k == j || rows.any(|row| self.leads(row)),
        };
        self.known[k] = Some(shows);
        shows
    }
}

/// The rows of a declaration on the way that count: those of its type, and of its body if it is transparent.
fn on_the_way(module: &Module, place: usize) -> impl Iterator<Item = usize> {
    let kind = module.declarations[place * RECORD];
    let [mut types, mut bodies] = parts(module, place);
    match (fault(), kind) {
        ("types-on-the-way-left-out", _) | ("postulate-types-not-followed", 1) | ("opaque-types-not-followed", 3) => {
            types.end = types.start;
        }
        _ => {}
    }
    let counts = match fault() {
        "opaque-bodies-on-the-way-count" => true,
        "transparent-bodies-on-the-way-left-out" => false,
        _ => kind == 2,
    };
    if !counts {
        bodies.end = bodies.start;
    }
    types.chain(bodies)
}

/// The rows of a declaration's type and body, which stand behind those of the one before.
fn whole(module: &Module, place: usize) -> Range<usize> {
    let end = |place: usize| {
        let [.., ty, body] = module.declarations[place * RECORD..][..RECORD] else { unreachable!("a record") };
        ty.max(body) as usize + 1
    };
    place.checked_sub(1).map_or(0, end)..end(place)
}

/// The rows of a declaration's type, and those of its body behind them.
fn parts(module: &Module, place: usize) -> [Range<usize>; 2] {
    let Range { start, end } = whole(module, place);
    let behind = module.declarations[place * RECORD + 3] as usize + 1;
    [start..behind, behind..end]
}

/// The rows of the declaration that is asked of.
fn rows_of(module: &Module, place: usize) -> Range<usize> {
    let Range { start, end } = whole(module, place);
    let kind = module.declarations[place * RECORD];
    let [ty, body] = parts(module, place);
    match fault() {
        "body-not-looked-at" => ty,
        "opaque-body-not-looked-at" if kind == 3 => ty,
        "type-not-looked-at" if kind != 1 => body,
        "row-of-the-next-declaration" => start..(end + 1).min(module.core.len() / ROW),
        _ => start..end,
    }
}
