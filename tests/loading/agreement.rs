//! Demand 3: two accepted modules have the same core exactly if they agree.
use super::station::Loaded;
use super::tables::{OFFSET, RECORD, ROW};
use common::modules::{Declaration, Module, Term};
use common::vocabulary::{KINDS, kind_number};

/// A binder around a term: its name and its place.
type Around<'a> = Vec<(&'a str, Vec<usize>)>;

/// "There must be equally many declarations, and the first agrees with the first .. and so on".
pub fn agree(left: &Module, right: &Module) -> bool {
    parting(left, right).is_none()
}

/// The first place at which two declarations do not agree, or only one module has one; None where the modules agree.
pub fn parting(left: &Module, right: &Module) -> Option<usize> {
    let pairs = left.declarations.iter().zip(&right.declarations);
    let agreeing = pairs.take_while(|(a, b)| declarations_agree(a, b)).count();
    (agreeing < left.declarations.len().max(right.declarations.len())).then_some(agreeing)
}

/// "equal kind, equal name bytes, types that agree, and bodies that agree where the kind has one"
fn declarations_agree(left: &Declaration, right: &Declaration) -> bool {
    let tops_agree = |a, b| terms_agree((a, b), &mut Vec::new(), &mut Default::default());
    let bodies = match (&left.body, &right.body) {
        (Some(a), Some(b)) => tops_agree(a, b),
        (None, None) => true,
        _ => false,
    };
    left.kind == right.kind && left.name == right.name && tops_agree(&left.ty, &right.ty) && bodies
}

/// "the same form; at a universe also the same numeral bytes; at a ref also either both bound, by binders at the same
/// place, or both free, with equal name bytes"; "an arrow agrees in form with a pi", and binds nothing
fn terms_agree<'a>(pair: (&'a Term, &'a Term), place: &mut Vec<usize>, around: &mut (Around<'a>, Around<'a>)) -> bool {
    match pair {
        (Term::Leaf(a), Term::Leaf(b)) => a == b,
        (Term::Universe(a), Term::Universe(b)) => a == b,
        (Term::Ref(a), Term::Ref(b)) => match (binder_of(a, &around.0), binder_of(b, &around.1)) {
            (None, None) => a == b,
            (left, right) => left == right,
        },
        (Term::Node { form: f, binder: a, args: left }, Term::Node { form: g, binder: b, args: right }) => {
            f.core_word() == g.core_word()
                && left.iter().zip(right).enumerate().all(|(argument, pair)| {
                    // the binder covers the codomain or body, which is the last argument
                    let covered = argument + 1 == left.len();
                    let binder_place = place.clone();
                    let add = |around: &mut Around<'a>, name: &'a Option<String>| {
                        let name = name.as_deref().filter(|_| covered);
                        around.extend(name.map(|name| (name, binder_place.clone())));
                    };
                    let before = (around.0.len(), around.1.len());
                    add(&mut around.0, a);
                    add(&mut around.1, b);
                    place.push(argument);
                    let agreed = terms_agree(pair, place, around);
                    place.pop();
                    around.0.truncate(before.0);
                    around.1.truncate(before.1);
                    agreed
                })
        }
        _ => false,
    }
}

/// The place of "the innermost pi, sigma or lam of that name in whose codomain or body it stands".
fn binder_of<'a>(name: &str, around: &'a Around) -> Option<&'a [usize]> {
    around.iter().rev().find(|(binder, _)| *binder == name).map(|(_, place)| &place[..])
}

/// A loaded source, which is accepted.
pub type Accepted<'a> = (&'a [u8], &'a Loaded);

/// "equal counts of rows and of declarations, and up to these counts equal rows (universe compared by digits) and
/// equal declarations (names compared by bytes)"
pub fn same_core(left: Accepted, right: Accepted) -> bool {
    left.1.answer == right.1.answer && rows(left).eq(rows(right)) && records(left).eq(records(right))
}

/// The words of each row, a universe's span and the term's offset apart, and its digits.
fn rows<'a>((source, loaded): Accepted<'a>) -> impl Iterator<Item = (u32, &'a [u32], &'a [u8])> {
    let universe = kind_number(&KINDS, "universe").expect("a kind");
    let count = loaded.answer[1] as usize;
    loaded.tables.core.chunks_exact(ROW).take(count).map(move |row| {
        let digits = if row[0] == universe { part(source, row[1], row[2]) } else { &[] };
        (row[0], if row[0] == universe { &[] } else { &row[1..OFFSET] }, digits)
    })
}

/// Kind, name, type row and body row of each record.
fn records<'a>((source, loaded): Accepted<'a>) -> impl Iterator<Item = (u32, &'a [u8], &'a [u32])> {
    let count = loaded.answer[2] as usize;
    let records = loaded.tables.declarations.chunks_exact(RECORD).take(count);
    records.map(|record| (record[0], part(source, record[1], record[2]), &record[3..]))
}

fn part(source: &[u8], start: u32, length: u32) -> &[u8] {
    &source[start as usize..][..length as usize]
}
