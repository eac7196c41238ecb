//! What a source needs, counted on its trees, and which of its tables reading finds full first. Neither tables nor frames
//! play a part here.
use super::order::Limits;
use answers::Read;
use answers::rows::{roots, surface_rows};
use common::modules::{Declaration, Module, Term};
use common::refusal::Refusal;

/// The rows of a declaration, and the frames of its type and of its body.
#[derive(Clone, Debug, Eq, PartialEq)]
struct Declared {
    rows: usize,
    frames: Vec<usize>,
}

#[derive(Clone, Debug, Eq, PartialEq)]
pub struct Needs(Vec<Declared>);

impl Needs {
    /// Of the tests' own trees.
    pub fn of_trees(module: &Module) -> Self {
        let terms = |declaration: &Declaration| [Some(declaration.ty.clone()), declaration.body.clone()];
        let declared = |declaration: &Declaration| {
            let terms: Vec<Term> = terms(declaration).into_iter().flatten().collect();
            Declared { rows: terms.iter().map(size).sum(), frames: terms.iter().map(frames).collect() }
        };
        Self(module.declarations.iter().map(declared).collect())
    }

    /// Of the trees that the Rust has read.
    pub fn of_rust(read: &Read) -> Self {
        let (mut sizes, mut frames) = (Vec::new(), Vec::new());
        // a row's children stand before it
        for row in surface_rows(read) {
            let size: usize = row.children.iter().map(|child| sizes[*child]).sum();
            sizes.push(1 + size);
            let inside: Option<usize> = row.children.iter().map(|child| frames[*child]).max();
            frames.push(inside.map_or(0, |inside| 1 + inside));
        }
        let declared = |roots: Vec<usize>| Declared {
            rows: roots.iter().map(|root| sizes[*root]).sum(),
            frames: roots.iter().map(|root| frames[*root]).collect(),
        };
        Self(roots(read).into_iter().map(declared).collect())
    }

    pub fn rows(&self) -> usize {
        self.0.iter().map(|declared| declared.rows).sum()
    }

    pub fn declarations(&self) -> usize {
        self.0.len()
    }

    /// "The frames figure is the greatest number open together in one term": of each type and body in turn.
    pub fn frames(&self) -> Vec<usize> {
        self.0.iter().flat_map(|declared| declared.frames.clone()).collect()
    }

    pub fn greatest(&self) -> usize {
        self.frames().into_iter().max().unwrap_or(0)
    }

    /// Whether some body has more frames than every type.
    pub fn deepest_is_a_body(&self) -> bool {
        let types = self.0.iter().map(|declared| declared.frames[0]);
        types.max().is_some_and(|types| types < self.greatest())
    }

    pub fn limits(&self) -> Limits {
        Limits { rows: self.rows(), declarations: self.declarations() }
    }

    /// "with both fewer, the one that reading meets first": 9 where a declaration opens, 8 at one of its rows.
    pub fn met_first(&self, room: Limits) -> Option<Refusal> {
        let mut rows = 0;
        for (place, declared) in self.0.iter().enumerate() {
            if place == room.declarations {
                return Some(Refusal::nowhere(9));
            }
            rows += declared.rows;
            if rows > room.rows {
                return Some(Refusal::nowhere(8));
            }
        }
        None
    }
}

/// A row for each term.
fn size(term: &Term) -> usize {
    match term {
        Term::Node { args, .. } => 1 + args.iter().map(size).sum::<usize>(),
        Term::Leaf(_) | Term::Ref(_) | Term::Universe(_) => 1,
    }
}

/// "a leaf, `ref` and `universe` 0, a form 1 more than the most of its arguments"
fn frames(term: &Term) -> usize {
    match term {
        Term::Node { args, .. } => 1 + args.iter().map(frames).max().unwrap_or(0),
        Term::Leaf(_) | Term::Ref(_) | Term::Universe(_) => 0,
    }
}
