//! Names by document 01's own words: a reference walks up to the innermost binder that covers it.
use super::reading::{Declared, Node, Read, bytes};
use crate::faults;
use common::fault::{fault, is};
use common::refusal::Refusal;
use common::tokens::Token;
use common::vocabulary::{ARROW, KINDS, kind_number};

/// What a ref becomes.
#[derive(Clone, Copy)]
pub enum Referent {
    Var(usize),
    Global(usize),
}

/// For each node the referent, if it is a ref; or the first refusal.
pub fn resolve(source: &[u8], read: &Read) -> Result<Vec<Option<Referent>>, Refusal> {
    let parents = parents(&read.nodes);
    let mut referents = vec![None; read.nodes.len()];
    let mut order: Vec<usize> = (0..read.declared.len()).collect();
    if is("last-declaration-first") {
        order.reverse();
    }
    for place in order {
        let duplicate = is_duplicate(source, read, place);
        if duplicate && !is("four-after-type") {
            return Err(Refusal::nowhere(4));
        }
        for at in nodes_of(&read.declared, place) {
            if read.nodes[at].kind == kind_number(&KINDS, "ref").expect("a kind") {
                let found = referent(source, read, &parents, place, at);
                referents[at] = Some(found.ok_or(Refusal::nowhere(5))?);
            }
        }
        if duplicate {
            return Err(Refusal::nowhere(4));
        }
    }
    Ok(referents)
}

/// The place of the declaration with a name.
pub fn place(source: &[u8], declared: &[Declared], name: Token) -> Option<usize> {
    declared.iter().position(|other| same(source, other.name, name))
}

fn same(source: &[u8], a: Token, b: Token) -> bool {
    let (a, b) = (bytes(source, a), bytes(source, b));
    faults::same_bytes(a, b).unwrap_or(a == b)
}

fn is_duplicate(source: &[u8], read: &Read, at: usize) -> bool {
    let name = read.declared[at].name;
    let later = is("four-by-later-names") && place(source, &read.declared[at + 1..], name).is_some();
    later || place(source, &read.declared[..at], name).is_some()
}

/// The nodes of a declaration's type and body stand behind those of the one before.
fn nodes_of(declared: &[Declared], place: usize) -> std::ops::Range<usize> {
    let end = |declared: &Declared| declared.body.unwrap_or(declared.ty) + 1;
    let start = place.checked_sub(1).map_or(0, |before| end(&declared[before]));
    start..end(&declared[place])
}

/// For each node the node that it is an argument of, and which argument.
fn parents(nodes: &[Node]) -> Vec<Option<(usize, usize)>> {
    let mut parents = vec![None; nodes.len()];
    for (at, node) in nodes.iter().enumerate() {
        for (argument, child) in node.children.iter().enumerate() {
            parents[*child] = Some((at, argument));
        }
    }
    parents
}

fn referent(
    source: &[u8],
    read: &Read,
    parents: &[Option<(usize, usize)>],
    place_of_declaration: usize,
    at: usize,
) -> Option<Referent> {
    let name = read.nodes[at].atom.expect("a ref has a name");
    let own = match fault() {
        "own-type-visible" => at <= read.declared[place_of_declaration].ty,
        "own-body-visible" => at > read.declared[place_of_declaration].ty,
        _ => false,
    };
    let seen = if is("later-declaration-visible") { read.declared.len() } else { place_of_declaration };
    let seen = &read.declared[..seen + usize::from(own)];
    let global = place(source, seen, name).map(|place| Referent::Global(place + usize::from(is("places-from-1"))));
    let local = local(source, &read.nodes, parents, at, name).map(Referent::Var);
    match fault() {
        "first-declaration-only" if place_of_declaration > 0 => Some(Referent::Global(0)),
        "local-does-not-hide" => global.or(local),
        "module-name-visible" if same(source, read.module_name.expect("a name"), name) => {
            local.or(global).or(Some(Referent::Global(0)))
        }
        _ => local.or(global),
    }
}

/// The number of binders between a ref and the innermost one of its name in whose codomain or body it stands.
fn local(
    source: &[u8],
    nodes: &[Node],
    parents: &[Option<(usize, usize)>],
    mut at: usize,
    name: Token,
) -> Option<usize> {
    let mut count = 0;
    let mut found = None;
    let is_arrow = |node: &Node| Some(node.kind) == kind_number(&KINDS, ARROW.word);
    while let Some((parent, argument)) = parents[at] {
        at = parent;
        let covered = argument + 1 == nodes[parent].children.len();
        let Some(binder) = nodes[parent].atom else {
            if is_arrow(&nodes[parent]) {
                if covered && is("arrow-hides-names") {
                    break;
                }
                let blank = covered && is("arrow-binds-blank") && bytes(source, name) == b"_";
                found = found.or(blank.then_some(count));
                count += arrow_counts(covered);
            }
            continue;
        };
        let reached = covered || is("binder-in-own-domain");
        let blank = is("underscore-unreachable") && bytes(source, binder) == b"_";
        if reached && !blank && same(source, binder, name) && (found.is_none() || is("outermost-binder")) {
            found = Some(count);
        }
        count += usize::from(reached || is("domain-counts-binder"));
    }
    match fault() {
        "indices-from-1" => found.map(|inside| inside + 1),
        "indices-from-outside" => found.map(|inside| count - 1 - inside),
        _ => found,
    }
}

/// For how many binders an arrow counts, in its codomain or not.
fn arrow_counts(codomain: bool) -> usize {
    match fault() {
        "arrow-codomain-not-counted" => 0,
        "arrow-domain-counted" => 1,
        _ => usize::from(codomain),
    }
}
