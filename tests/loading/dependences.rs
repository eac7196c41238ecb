//! Which declarations depend on which, and the row that is to be shown: from each place a search down through what the rows on
//! the way name. The words are those that the Rust gives, and the rows of a declaration are found by its tree.
use super::expected::Content;
use super::tables::{RECORD, ROW};
use common::vocabulary::{FORMS, KINDS};

const POSTULATE: usize = 1;
const TRANSPARENT: usize = 2;
const OPAQUE: usize = 3;

/// A global row, and the place that it names.
#[derive(Clone, Copy)]
struct Global {
    row: usize,
    place: usize,
}

/// The global rows of a declaration.
struct Declared {
    kind: usize,
    ty: Vec<Global>,
    body: Vec<Global>,
}

/// For the kinds from 1, whether the type and the body of a declaration on the way count.
#[derive(Clone, Copy)]
struct Way {
    types: [bool; 3],
    bodies: [bool; 3],
}

/// "a global row in k's type, or in k's body when k is transparent (kind 2)"
const RULE: Way = Way { types: [true; 3], bodies: [false, true, false] };

impl Way {
    fn without_types(self, kind: usize) -> Self {
        let mut types = self.types;
        types[kind - 1] = false;
        Self { types, ..self }
    }

    fn with_bodies(self, kind: usize, counts: bool) -> Self {
        let mut bodies = self.bodies;
        bodies[kind - 1] = counts;
        Self { bodies, ..self }
    }
}

/// For each place the places that it shows.
type Shown = Vec<Vec<bool>>;

pub struct Dependences {
    declared: Vec<Declared>,
    shown: Shown,
}

/// What makes a pair of places telling. A part is a type or a body.
pub const TRAITS: [&str; 13] = [
    "yes only through another",
    "yes only through two others",
    "yes only by its own opaque body",
    "yes only through an opaque one's type",
    "yes only through a transparent one's body",
    "yes only through a postulate's type",
    "yes by rows that name different places",
    "yes by several rows of its type",
    "yes by several rows of its body alone",
    "yes by its type and by its body",
    "yes first by a row that names another, though a later one of that part names it",
    "yes by a type that names others alone, though the body names it",
    "no, as an opaque body on the way does not count",
];

impl Dependences {
    pub fn new(content: &Content) -> Self {
        let declared: Vec<Declared> = (0..content.records()).map(|place| declared(content, place)).collect();
        let shown = shown(&declared, RULE, usize::MAX);
        Self { declared, shown }
    }

    /// "A yes shall show the lowest-numbered row that qualifies under Req 05's rule": "some global row in i's type or body
    /// names a place that shows j". None is a no.
    pub fn row(&self, i: usize, j: usize) -> Option<usize> {
        self.globals(i).filter(|global| self.shown[global.place][j]).map(|global| global.row).min()
    }

    fn globals(&self, i: usize) -> impl Iterator<Item = Global> {
        let Declared { ty, body, .. } = &self.declared[i];
        ty.iter().chain(body).copied()
    }

    /// How many pairs have each of TRAITS.
    pub fn traits(&self) -> [usize; TRAITS.len()] {
        let by = |way, steps| shown(&self.declared, way, steps);
        let others = Others {
            mentioned: by(RULE, 0),
            one_step: by(RULE, 1),
            without_opaque_types: by(RULE.without_types(OPAQUE), usize::MAX),
            without_bodies: by(RULE.with_bodies(TRANSPARENT, false), usize::MAX),
            without_postulates: by(RULE.without_types(POSTULATE), usize::MAX),
            with_opaque_bodies: by(RULE.with_bodies(OPAQUE, true), usize::MAX),
        };
        let mut counts = [0; TRAITS.len()];
        let count = self.declared.len();
        for (i, j) in (0..count).flat_map(|i| (0..count).map(move |j| (i, j))) {
            let traits = self.traits_of(i, j, &others);
            counts.iter_mut().zip(traits).for_each(|(count, holds)| *count += usize::from(holds));
        }
        counts
    }

    fn traits_of(&self, i: usize, j: usize, others: &Others) -> [bool; TRAITS.len()] {
        let by = |shown: &Shown| self.globals(i).any(|global| shown[global.place][j]);
        let yes = by(&self.shown);
        let Declared { kind, ty, body } = &self.declared[i];
        let [ty, body] = [ty, body].map(|part| self.qualifying(part, j));
        let first_part = if ty.is_empty() { &body } else { &ty };
        let first = first_part.first().copied();
        let different = [&ty[..], &body].concat().iter().any(|place| Some(*place) != first);
        [
            yes && !by(&others.mentioned),
            yes && !by(&others.one_step),
            yes && *kind == OPAQUE && ty.is_empty(),
            yes && !by(&others.without_opaque_types),
            yes && !by(&others.without_bodies),
            yes && !by(&others.without_postulates),
            different,
            ty.len() > 1,
            ty.is_empty() && body.len() > 1,
            !ty.is_empty() && !body.is_empty(),
            first != Some(j) && first_part.contains(&j),
            !ty.is_empty() && !ty.contains(&j) && body.contains(&j),
            !yes && by(&others.with_opaque_bodies),
        ]
    }

    /// The places that show j, as the rows of a part name them, from the lowest row on.
    fn qualifying(&self, part: &[Global], j: usize) -> Vec<usize> {
        let mut globals: Vec<Global> = part.iter().filter(|global| self.shown[global.place][j]).copied().collect();
        globals.sort_by_key(|global| global.row);
        globals.iter().map(|global| global.place).collect()
    }
}

/// What other rules would show.
struct Others {
    mentioned: Shown,
    one_step: Shown,
    without_opaque_types: Shown,
    without_bodies: Shown,
    without_postulates: Shown,
    with_opaque_bodies: Shown,
}

/// "Place k shows j if k is j, or if a global row .. names a place that shows j", in at most so many steps.
fn shown(declared: &[Declared], way: Way, steps: usize) -> Shown {
    (0..declared.len()).map(|from| reached(declared, way, steps, from)).collect()
}

fn reached(declared: &[Declared], way: Way, steps: usize, from: usize) -> Vec<bool> {
    let mut reached = vec![false; declared.len()];
    let mut next = vec![from];
    for _ in 0..=steps {
        next.retain(|place| !std::mem::replace(&mut reached[*place], true));
        if next.is_empty() {
            break;
        }
        next = next.iter().flat_map(|place| counting(&declared[*place], way)).collect();
    }
    reached
}

/// The places named by the rows of a declaration on the way that count.
fn counting(declared: &Declared, way: Way) -> Vec<usize> {
    let of = |globals: &[Global], counts: bool| -> Vec<usize> {
        globals.iter().filter(|_| counts).map(|global| global.place).collect()
    };
    let kind = declared.kind - 1;
    [of(&declared.ty, way.types[kind]), of(&declared.body, way.bodies[kind])].concat()
}

fn declared(content: &Content, place: usize) -> Declared {
    let record = &content.declarations[place * RECORD..][..RECORD];
    let kind = record[0] as usize;
    let body = if kind == POSTULATE { Vec::new() } else { globals(content, record[4]) };
    Declared { kind, ty: globals(content, record[3]), body }
}

/// The global rows of the tree below a row.
fn globals(content: &Content, root: u32) -> Vec<Global> {
    let mut pending = vec![root as usize];
    let mut globals = Vec::new();
    while let Some(row) = pending.pop() {
        let words = &content.core[row * ROW..][..ROW];
        let word = KINDS[words[0] as usize - 1];
        if word == "global" {
            globals.push(Global { row, place: words[1] as usize });
        }
        let arity = FORMS.iter().find(|form| form.word == word).map_or(0, |form| form.arity);
        pending.extend(words[1..=arity].iter().map(|child| *child as usize));
    }
    globals
}
