//! The question for a reference's binder, over the words that loading leaves: a reference walks up to the forms around it.
use super::Module;
use crate::loading::tables::{RECORD, ROW};
use common::fault::{fault, is};
use common::refusal::Refusal;
use common::vocabulary::{Edition, FORMS, Form, KINDS};

/// A count and a row, or a place, or 12.
pub fn answer(source: &[u8], module: &Module, row: usize) -> Result<Vec<usize>, Refusal> {
    let rows = module.surface.len() / ROW;
    let row = match fault() {
        "binder-rows-of-32-bits" => row as u32 as usize,
        "binder-rows-by-their-words" => row.wrapping_mul(ROW) / ROW,
        _ => row,
    };
    let named = |row: usize| word(module, row) == "ref" || is("binder-of-a-form") && binds(module, row);
    if row >= rows || !named(row) {
        return Err(Refusal::nowhere(12));
    }
    let name = name(source, module, row);
    let local = local(source, module, row, name);
    let global = place(source, module, row, name);
    let hidden = is("binder-hidden-by-a-declaration") && global.is_some();
    match (local.filter(|_| !hidden), global) {
        (Some((count, row)), _) if is("binder-values-swapped") => Ok(vec![row, count]),
        (Some((count, row)), _) => Ok(vec![count, row]),
        (None, Some(place)) if is("binder-of-two-values-for-a-place") => Ok(vec![0, place]),
        (None, Some(place)) => Ok(vec![place + usize::from(is("binder-places-from-1"))]),
        (None, None) => Err(Refusal::nowhere(12)),
    }
}

fn words(module: &Module, row: usize) -> &[u32] {
    &module.surface[row * ROW..][..ROW]
}

fn word(module: &Module, row: usize) -> &'static str {
    KINDS[words(module, row)[0] as usize - 1]
}

fn binds(module: &Module, row: usize) -> bool {
    FORMS.iter().any(|form| form.binds && form.word == word(module, row))
}

/// The form of a row, of whichever edition.
fn form(module: &Module, row: usize) -> Option<&'static Form> {
    Edition::Second.form(word(module, row))
}

fn name<'a>(source: &'a [u8], module: &Module, row: usize) -> &'a [u8] {
    &source[words(module, row)[1] as usize..][..words(module, row)[2] as usize]
}

/// The rows of a form's arguments; behind the name where the form binds one.
fn arguments(module: &Module, row: usize) -> &[u32] {
    form(module, row).map_or(&[], |form| &words(module, row)[if form.binds { 3 } else { 1 }..][..form.arity])
}

/// The form that a row is an argument of, and whether it is the last one.
fn parent(module: &Module, row: usize) -> Option<(usize, bool)> {
    let mut above = row + 1..module.surface.len() / ROW;
    above.find_map(|form| {
        let arguments = arguments(module, form);
        let at = arguments.iter().position(|argument| *argument as usize == row)?;
        Some((form, at + 1 == arguments.len()))
    })
}

/// The number of binders between a reference and the innermost one of its name that covers it, and that one's row.
fn local(source: &[u8], module: &Module, row: usize, wanted: &[u8]) -> Option<(usize, usize)> {
    let (mut at, mut count, mut found) = (row, 0, Vec::new());
    while let Some((form, last)) = parent(module, at) {
        at = form;
        let passed_over = match word(module, form) {
            "lam" => is("binder-lam-passed-over"),
            "sigma" => is("binder-sigma-passed-over"),
            _ => false,
        };
        if word(module, form) == "arrow" {
            found.extend((last && is("binder-is-an-arrow")).then_some((count, form)));
            count += arrow_counts(last);
        }
        if !binds(module, form) || passed_over {
            continue;
        }
        let name = name(source, module, form);
        let blank = is("binder-blank-passed-over") && name == b"_";
        let same = name == wanted || is("binder-names-by-length") && name.len() == wanted.len();
        if (last || is("binder-covers-its-domain")) && same && !blank {
            found.push((count, form));
        }
        count += usize::from(last || is("binder-counts-in-its-domain"));
    }
    let (inside, form) = *found.first()?;
    let arguments = arguments(module, form);
    Some(match fault() {
        "binder-outermost" => *found.last()?,
        "binder-row-of-the-outermost" => (inside, found.last()?.1),
        "binder-row-of-the-domain" => (inside, arguments[0] as usize),
        "binder-row-of-the-codomain" => (inside, *arguments.last()? as usize),
        "binder-count-one-more" => (inside + 1, form),
        "binder-count-from-outside" => (count - 1 - inside, form),
        _ => (inside, form),
    })
}

/// For how many binders an arrow counts, in its codomain or not.
fn arrow_counts(codomain: bool) -> usize {
    match fault() {
        "binder-arrow-not-counted" => 0,
        "binder-arrow-counts-in-its-domain" => 1,
        _ => usize::from(codomain),
    }
}

/// The place of the earlier declaration with a name: its rows, and so its own, stand before the row.
fn place(source: &[u8], module: &Module, row: usize, wanted: &[u8]) -> Option<usize> {
    module.declarations.chunks_exact(RECORD).position(|record| {
        let &[_, start, length, ty, body] = record else { unreachable!("a record") };
        (ty.max(body) as usize) < row && &source[start as usize..][..length as usize] == wanted
    })
}
