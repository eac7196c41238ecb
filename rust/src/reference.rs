//! References as they were resolved.
use crate::{Atom, Row, SurfaceRow};

/// A reference of a loaded source.
#[derive(Clone, Copy, Debug, Eq, Hash, PartialEq)]
#[non_exhaustive]
pub struct Reference<'a> {
    /// Its row, in both tables.
    pub row: usize,
    /// The name as it is written, and where.
    pub name: Atom<'a>,
    /// What the name stands for.
    pub target: Target,
}

/// What a name stands for.
#[derive(Clone, Copy, Debug, Eq, Hash, PartialEq)]
#[non_exhaustive]
pub enum Target {
    /// A bound variable: so many binders stand between the reference and the one that binds it, 0 for the innermost.
    Var {
        /// How many.
        count: usize,
    },
    /// A declaration.
    Global {
        /// Its place, from 0.
        place: usize,
    },
}

impl<'a> Reference<'a> {
    /// The reference with a row in both tables, if the row is one.
    pub(crate) fn of(row: usize, read: SurfaceRow<'a>, core: Row<'a>) -> Option<Self> {
        let SurfaceRow::Ref { name } = read else { return None };
        let target = match core {
            Row::Var { count } => Target::Var { count },
            Row::Global { place } => Target::Global { place },
            other => unreachable!("the library's promise rules out a reference resolved to {other}"),
        };
        Some(Self { row, name, target })
    }
}
