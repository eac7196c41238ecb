//! Rows of the two tables as enums.
use crate::Atom;
use core::fmt;

/// A row of the core table: a term with names resolved.
///
/// Fields that are terms are the numbers of their rows, all lower than the row's own. A var's count says how many
/// binders stand between the reference and the one that binds it, 0 for the innermost; a pi and a sigma bind in their
/// codomain, a lam in its body. A pi may be an arrow of the source, which binds no name and counts all the same. A
/// global's place is that of a declaration, from 0. A universe's numeral may have any number of digits. Where the term
/// starts in the source is told by [`Loaded::offset`](crate::Loaded::offset).
///
/// A row is shown as in the listing: the kind's word, then count, place, digits or children.
#[derive(Clone, Copy, Debug, Eq, Hash, PartialEq)]
#[allow(missing_docs)]
pub enum Row<'a> {
    Var { count: usize },
    Global { place: usize },
    Universe { level: Atom<'a> },
    Pi { domain: usize, codomain: usize },
    Lam { body: usize },
    App { function: usize, argument: usize },
    Sigma { domain: usize, codomain: usize },
    Pair { first: usize, second: usize },
    Fst { pair: usize },
    Snd { pair: usize },
    Id { ty: usize, left: usize, right: usize },
    Refl { term: usize },
    J { ty: usize, base: usize, motive: usize, branch: usize, endpoint: usize, path: usize },
    Empty,
    EmptyElim { motive: usize, scrutinee: usize },
    Unit,
    Star,
    UnitElim { motive: usize, branch: usize, scrutinee: usize },
    Nat,
    Zero,
    Succ { predecessor: usize },
    NatElim { motive: usize, zero_case: usize, step: usize, scrutinee: usize },
    Ann { term: usize, ty: usize },
}

impl<'a> Row<'a> {
    pub(crate) fn new(source: &'a [u8], words: &[u32]) -> Self {
        let field = |at: usize| words[at] as usize;
        match words[0] {
            1 => Self::Var { count: field(1) },
            2 => Self::Global { place: field(1) },
            3 => Self::Universe { level: Atom::new(source, &words[1..]) },
            4 => Self::Pi { domain: field(1), codomain: field(2) },
            5 => Self::Lam { body: field(1) },
            6 => Self::App { function: field(1), argument: field(2) },
            7 => Self::Sigma { domain: field(1), codomain: field(2) },
            8 => Self::Pair { first: field(1), second: field(2) },
            9 => Self::Fst { pair: field(1) },
            10 => Self::Snd { pair: field(1) },
            11 => Self::Id { ty: field(1), left: field(2), right: field(3) },
            12 => Self::Refl { term: field(1) },
            13 => Self::J {
                ty: field(1),
                base: field(2),
                motive: field(3),
                branch: field(4),
                endpoint: field(5),
                path: field(6),
            },
            14 => Self::Empty,
            15 => Self::EmptyElim { motive: field(1), scrutinee: field(2) },
            16 => Self::Unit,
            17 => Self::Star,
            18 => Self::UnitElim { motive: field(1), branch: field(2), scrutinee: field(3) },
            19 => Self::Nat,
            20 => Self::Zero,
            21 => Self::Succ { predecessor: field(1) },
            22 => Self::NatElim { motive: field(1), zero_case: field(2), step: field(3), scrutinee: field(4) },
            23 => Self::Ann { term: field(1), ty: field(2) },
            kind => unreachable!("the library's promise rules out a core row of kind {kind}"),
        }
    }

    /// The kind's word, as in the listing.
    pub const fn word(&self) -> &'static str {
        match self {
            Self::Var { .. } => "var",
            Self::Global { .. } => "global",
            Self::Universe { .. } => "universe",
            Self::Pi { .. } => "pi",
            Self::Lam { .. } => "lam",
            Self::App { .. } => "app",
            Self::Sigma { .. } => "sigma",
            Self::Pair { .. } => "pair",
            Self::Fst { .. } => "fst",
            Self::Snd { .. } => "snd",
            Self::Id { .. } => "id",
            Self::Refl { .. } => "refl",
            Self::J { .. } => "j",
            Self::Empty => "empty",
            Self::EmptyElim { .. } => "empty-elim",
            Self::Unit => "unit",
            Self::Star => "star",
            Self::UnitElim { .. } => "unit-elim",
            Self::Nat => "nat",
            Self::Zero => "zero",
            Self::Succ { .. } => "succ",
            Self::NatElim { .. } => "nat-elim",
            Self::Ann { .. } => "ann",
        }
    }

    /// The rows of its arguments, in their order.
    ///
    /// ```
    /// # use sulyterom::Row;
    /// let row = Row::Id { ty: 4, left: 6, right: 5 };
    /// assert_eq!(row.children().collect::<Vec<_>>(), [4, 6, 5]);
    /// ```
    pub fn children(&self) -> impl Iterator<Item = usize> + use<> {
        match *self {
            Self::Var { .. } | Self::Global { .. } | Self::Universe { .. } => first([]),
            Self::Empty | Self::Unit | Self::Star | Self::Nat | Self::Zero => first([]),
            Self::Lam { body: a }
            | Self::Fst { pair: a }
            | Self::Snd { pair: a }
            | Self::Refl { term: a }
            | Self::Succ { predecessor: a } => first([a]),
            Self::Pi { domain: a, codomain: b }
            | Self::App { function: a, argument: b }
            | Self::Sigma { domain: a, codomain: b }
            | Self::Pair { first: a, second: b }
            | Self::EmptyElim { motive: a, scrutinee: b }
            | Self::Ann { term: a, ty: b } => first([a, b]),
            Self::Id { ty: a, left: b, right: c } | Self::UnitElim { motive: a, branch: b, scrutinee: c } => {
                first([a, b, c])
            }
            Self::NatElim { motive, zero_case, step, scrutinee } => first([motive, zero_case, step, scrutinee]),
            Self::J { ty, base, motive, branch, endpoint, path } => first([ty, base, motive, branch, endpoint, path]),
        }
    }
}

/// At most six numbers.
fn first<const N: usize>(numbers: [usize; N]) -> core::iter::Take<core::array::IntoIter<usize, 6>> {
    let mut six = [0; 6];
    six[..N].copy_from_slice(&numbers);
    six.into_iter().take(N)
}

impl fmt::Display for Row<'_> {
    fn fmt(&self, formatter: &mut fmt::Formatter<'_>) -> fmt::Result {
        formatter.write_str(self.word())?;
        match self {
            Self::Var { count: number } | Self::Global { place: number } => write!(formatter, " {number}"),
            Self::Universe { level } => write!(formatter, " {level}"),
            _ => self.children().try_for_each(|child| write!(formatter, " {child}")),
        }
    }
}

/// A row of the surface table: a term as it was read, at the same number as its core row.
///
/// A ref's core row is a var or a global, and an arrow's is a pi with the same children. Every form but these five has the same row
/// in both tables. Arrows stand in sources of edition 0 2 only.
#[derive(Clone, Copy, Debug, Eq, Hash, PartialEq)]
#[non_exhaustive]
#[allow(missing_docs)]
pub enum SurfaceRow<'a> {
    Ref { name: Atom<'a> },
    Pi { binder: Atom<'a>, domain: usize, codomain: usize },
    Lam { binder: Atom<'a>, body: usize },
    Sigma { binder: Atom<'a>, domain: usize, codomain: usize },
    Arrow { domain: usize, codomain: usize },
    Same(Row<'a>),
}

impl<'a> SurfaceRow<'a> {
    pub(crate) fn new(source: &'a [u8], words: &[u32]) -> Self {
        let atom = || Atom::new(source, &words[1..]);
        let child = |at: usize| words[at] as usize;
        match words[0] {
            4 => Self::Pi { binder: atom(), domain: child(3), codomain: child(4) },
            5 => Self::Lam { binder: atom(), body: child(3) },
            7 => Self::Sigma { binder: atom(), domain: child(3), codomain: child(4) },
            24 => Self::Ref { name: atom() },
            25 => Self::Arrow { domain: child(1), codomain: child(2) },
            _ => Self::Same(Row::new(source, words)),
        }
    }
}

#[cfg(test)]
mod tests {
    use super::*;

    /// Document 01: "Kinds: var 1, global 2, universe 3, ..".
    const WORDS: &str = "var global universe pi lam app sigma pair fst snd id refl j empty empty-elim unit star unit-elim \
                         nat zero succ nat-elim ann";

    #[test]
    fn kinds_in_order() {
        for (kind, word) in (1..).zip(WORDS.split(' ')) {
            assert_eq!(Row::new(b"", &[kind, 0, 0, 0, 0, 0, 0, 0]).word(), word);
        }
    }

    #[test]
    #[should_panic(expected = "rules out a core row of kind 24")]
    fn no_ref_in_the_core() {
        Row::new(b"", &[24, 0, 0, 0, 0, 0, 0, 0]);
    }

    #[test]
    #[should_panic(expected = "rules out a core row of kind 25")]
    fn no_arrow_in_the_core() {
        Row::new(b"", &[25, 0, 1, 0, 0, 0, 0, 0]);
    }

    #[test]
    fn an_arrow_as_read() {
        let row = SurfaceRow::new(b"", &[25, 3, 7, 0, 0, 0, 0, 36]);
        assert_eq!(row, SurfaceRow::Arrow { domain: 3, codomain: 7 });
    }
}
