//! Rows and records as words.
use super::reading::{Declared, Node, Read};
use super::resolving::Referent;
use crate::loading::tables::{OFFSET, RECORD, ROW};
use common::fault::is;
use common::tokens::Token;
use common::vocabulary::{ARROW, KINDS, kind_number};

/// The words of the rows as read.
pub fn surface(read: &Read) -> Vec<u32> {
    let order = if is("rows-in-opening-order") { opening_order(read) } else { (0..read.nodes.len()).collect() };
    rows(read, &order, |at, children| surface_row(&read.nodes[at], children))
}

/// The words of the rows with references resolved.
pub fn core(read: &Read, referents: &[Option<Referent>]) -> Vec<u32> {
    let order = if is("right-to-left") { right_to_left(read) } else { (0..read.nodes.len()).collect() };
    rows(read, &order, |at, children| core_row(&read.nodes[at], referents[at], children))
}

pub fn records(read: &Read) -> Vec<u32> {
    let order = if is("rows-in-opening-order") { opening_order(read) } else { (0..read.nodes.len()).collect() };
    read.declared.iter().flat_map(|declared| record(declared, &order)).collect()
}

/// The rows, each at the number that `numbers` gives its node.
fn rows(read: &Read, numbers: &[usize], row: impl Fn(usize, &[u32]) -> [u32; ROW]) -> Vec<u32> {
    let mut words = vec![0; read.nodes.len() * ROW];
    for (at, node) in read.nodes.iter().enumerate() {
        let mut children: Vec<u32> = node.children.iter().map(|child| numbers[*child] as u32).collect();
        if is("children-reversed") {
            children.reverse();
        }
        words[numbers[at] * ROW..][..ROW].copy_from_slice(&row(at, &children));
    }
    words
}

fn surface_row(node: &Node, children: &[u32]) -> [u32; ROW] {
    let tag = is("span-of-the-tag").then_some(node.tag);
    let atom = node.atom.map(|atom| span(tag.unwrap_or(atom)).to_vec()).unwrap_or_default();
    let arrow = is_arrow(node);
    let atom = if arrow && is("arrow-with-a-span") { vec![0, 0] } else { atom };
    let fields = if is("binder-behind-children") { [children, &atom[..]] } else { [&atom[..], children] };
    let kind = if arrow && is("arrow-read-as-a-pi") { core_kind(node) } else { node.kind };
    padded(kind, &fields.concat(), node.offset)
}

fn is_arrow(node: &Node) -> bool {
    Some(node.kind) == kind_number(&KINDS, ARROW.word)
}

/// "Its core row is a pi".
fn core_kind(node: &Node) -> u32 {
    let word = if is_arrow(node) { "pi" } else { KINDS[node.kind as usize - 1] };
    kind_number(&KINDS, word).expect("a kind")
}

fn core_row(node: &Node, referent: Option<Referent>, children: &[u32]) -> [u32; ROW] {
    let kind = |word: &str| kind_number(&KINDS, word).expect("a kind");
    let offset = if is("core-without-offset") { 0 } else { node.offset };
    match referent {
        Some(_) if is("core-keeps-ref") => surface_row(node, children),
        Some(Referent::Var(count)) => padded(kind("var"), &[count as u32], offset),
        Some(Referent::Global(place)) => padded(kind("global"), &[place as u32], offset),
        None if is("core-children-as-in-surface") => surface_row(node, children),
        None if node.kind == kind("universe") && !is("core-universe-without-span") => surface_row(node, children),
        None if is("arrow-in-the-core") => padded(node.kind, children, offset),
        None => padded(core_kind(node), children, offset),
    }
}

fn padded(kind: u32, fields: &[u32], offset: usize) -> [u32; ROW] {
    let mut row = [0; ROW];
    row[0] = kind;
    row[1..=fields.len()].copy_from_slice(fields);
    row[OFFSET] = offset as u32;
    row
}

fn record(declared: &Declared, numbers: &[usize]) -> [u32; RECORD] {
    let kind = if is("transparent-is-opaque") && declared.kind == 2 { 3 } else { declared.kind };
    let [start, length] = span(if is("record-name-is-the-tag") { declared.tag } else { declared.name });
    let no_body = if is("postulate-with-body-row") { Some(declared.ty + 1) } else { None };
    let body = declared.body.map(|body| numbers[body]).or(no_body).unwrap_or(0);
    [kind, start, length, numbers[declared.ty] as u32, body as u32]
}

/// Start and length.
fn span(token: Token) -> [u32; 2] {
    let second = if is("span-of-two-ends") { token.end } else { token.end - token.start };
    [token.start as u32, second as u32]
}

/// For each node its number where numbers are given when a term is opened.
fn opening_order(read: &Read) -> Vec<usize> {
    let mut numbers = vec![0; read.nodes.len()];
    let mut number = 0;
    for root in roots(read) {
        let mut pending = vec![root];
        while let Some(at) = pending.pop() {
            numbers[at] = number;
            number += 1;
            pending.extend(read.nodes[at].children.iter().rev());
        }
    }
    numbers
}

/// For each node its number where the last argument is resolved first: the opening order from behind, in each type
/// and body.
fn right_to_left(read: &Read) -> Vec<usize> {
    let mut numbers = opening_order(read);
    let mut start = 0;
    for root in roots(read) {
        numbers[start..=root].iter_mut().for_each(|number| *number = start + root - *number);
        start = root + 1;
    }
    numbers
}

/// The top nodes of types and bodies. The nodes of each stand one behind the other, the top last.
fn roots(read: &Read) -> Vec<usize> {
    read.declared.iter().flat_map(|declared| [Some(declared.ty), declared.body]).flatten().collect()
}
