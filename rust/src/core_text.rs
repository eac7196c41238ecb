//! What reading a core text leaves, to be looked at.
use crate::library::Told;
use crate::{Atom, Declaration, RECORD_WORDS, ROW_WORDS, Refusal, Row, Tables};
use core::fmt;

/// A core text that was read, and what the tables hold of it.
///
/// It is shown in the layout of document 01's listing, with numerals and names as they are written:
///
/// ```
/// # use sulyterom::{Tables, read_core};
/// let text = r#"
///     (hott-core (format 0 1) (theory "mltt-core" 0 1) (declarations
///         (postulate "x" nat)
///         (transparent "a \"y\"" (pi (global 0) (var 0)) (lam (var 99999999999999999999)))))
/// "#;
/// let mut tables = Tables::with_sizes(6, 2);
/// let listing = r#"nodes 6 declarations 2
/// 0 nat
/// 1 global 0
/// 2 var 0
/// 3 pi 1 2
/// 4 var 99999999999999999999
/// 5 lam 4
/// 0 postulate x 0
/// 1 transparent a \"y\" 3 5
/// "#;
/// assert_eq!(read_core(text.as_bytes(), &mut tables)?.to_string(), listing);
/// # Ok::<(), sulyterom::Refusal>(())
/// ```
#[derive(Clone, Copy, Debug)]
pub struct CoreText<'a> {
    text: &'a [u8],
    core: &'a [u32],
    declarations: &'a [u32],
}

impl<'a> CoreText<'a> {
    /// What the tables hold after a text was read with this answer.
    pub(crate) fn told<W: AsRef<[u32]>>(text: &'a [u8], tables: &'a Tables<W>, told: Told) -> Result<Self, Refusal> {
        match told {
            (0, [2, rows, declarations]) => Ok(Self {
                text,
                core: &tables.core()[..rows as usize * ROW_WORDS],
                declarations: &tables.declarations()[..declarations as usize * RECORD_WORDS],
            }),
            (class, answer) => Err(Refusal::from_numbers(class, answer)),
        }
    }

    /// The text.
    pub fn text(&self) -> &'a [u8] {
        self.text
    }

    /// How many rows there are.
    pub fn row_count(&self) -> usize {
        self.core.len() / ROW_WORDS
    }

    /// How many declarations there are.
    pub fn declaration_count(&self) -> usize {
        self.declarations.len() / RECORD_WORDS
    }

    /// The row with a number.
    pub fn row(&self, number: usize) -> Option<TextRow<'a>> {
        self.core.chunks_exact(ROW_WORDS).nth(number).map(|words| TextRow::new(self.text, words))
    }

    /// The rows, by number from 0: every row after its children.
    pub fn rows(&self) -> impl ExactSizeIterator<Item = TextRow<'a>> + DoubleEndedIterator + use<'a> {
        let text = self.text;
        self.core.chunks_exact(ROW_WORDS).map(move |words| TextRow::new(text, words))
    }

    /// The offset in the text at which the term of a row starts: that of its opening parenthesis, or of its word where it
    /// is `empty`, `unit`, `star`, `nat` or `zero`.
    ///
    /// ```
    /// # use sulyterom::Loader;
    /// let mut loader = Loader::new();
    /// let text = loader.print(b"(surface 0 1)(module m)(postulate f (pi n nat (ref n)))")?;
    /// let read = loader.read_core(&text)?;
    /// assert!(text[read.offset(2).unwrap()..].starts_with(b"(pi nat (var 0))"));
    /// assert!(text[read.offset(1).unwrap()..].starts_with(b"(var 0)"));
    /// assert_eq!(read.offset(3), None);
    /// # Ok::<(), sulyterom::Refusal>(())
    /// ```
    pub fn offset(&self, number: usize) -> Option<usize> {
        self.core.chunks_exact(ROW_WORDS).nth(number).map(start)
    }

    /// The offsets at which the terms of the rows start, by number from 0.
    pub fn offsets(&self) -> impl ExactSizeIterator<Item = usize> + DoubleEndedIterator + use<'a> {
        self.core.chunks_exact(ROW_WORDS).map(start)
    }

    /// The declaration at a place. Its name is what stands between the quotes, escapes as they are written.
    pub fn declaration(&self, place: usize) -> Option<Declaration<'a>> {
        self.declarations.chunks_exact(RECORD_WORDS).nth(place).map(|record| Declaration::new(self.text, record))
    }

    /// The declarations, by place from 0.
    pub fn declarations(&self) -> impl ExactSizeIterator<Item = Declaration<'a>> + DoubleEndedIterator + use<'a> {
        let text = self.text;
        self.declarations.chunks_exact(RECORD_WORDS).map(move |record| Declaration::new(text, record))
    }

    /// The place of the declaration with a name, given as it is written between the quotes.
    pub fn place_of(&self, name: &[u8]) -> Option<usize> {
        self.declarations().position(|declaration| declaration.name.bytes == name)
    }
}

/// The last word of a row.
fn start(row: &[u32]) -> usize {
    row[ROW_WORDS - 1] as usize
}

impl fmt::Display for CoreText<'_> {
    fn fmt(&self, formatter: &mut fmt::Formatter<'_>) -> fmt::Result {
        writeln!(formatter, "nodes {} declarations {}", self.row_count(), self.declaration_count())?;
        for (number, row) in self.rows().enumerate() {
            writeln!(formatter, "{number} {row}")?;
        }
        for (place, declaration) in self.declarations().enumerate() {
            writeln!(formatter, "{place} {declaration}")?;
        }
        Ok(())
    }
}

/// A row that was read from a core text.
///
/// A var's count and a global's place are numerals of any number of digits, kept as they are written: whether there is
/// such a binder or declaration was not looked at. Every other row is as [`load`](crate::load) leaves it, but for a
/// universe's numeral, which is a part of the text.
#[derive(Clone, Copy, Debug, Eq, Hash, PartialEq)]
#[non_exhaustive]
#[allow(missing_docs)]
pub enum TextRow<'a> {
    Var { count: Atom<'a> },
    Global { place: Atom<'a> },
    Same(Row<'a>),
}

impl<'a> TextRow<'a> {
    pub(crate) fn new(text: &'a [u8], words: &[u32]) -> Self {
        let numeral = || Atom::new(text, &words[1..]);
        match words[0] {
            1 => Self::Var { count: numeral() },
            2 => Self::Global { place: numeral() },
            _ => Self::Same(Row::new(text, words)),
        }
    }

    /// The kind's word, as in the listing.
    pub const fn word(&self) -> &'static str {
        match self {
            Self::Var { .. } => "var",
            Self::Global { .. } => "global",
            Self::Same(row) => row.word(),
        }
    }

    /// The rows of its arguments, in their order.
    pub fn children(&self) -> impl Iterator<Item = usize> + use<> {
        let row = match self {
            Self::Same(row) => Some(*row),
            Self::Var { .. } | Self::Global { .. } => None,
        };
        row.map(|row| row.children()).into_iter().flatten()
    }
}

impl fmt::Display for TextRow<'_> {
    fn fmt(&self, formatter: &mut fmt::Formatter<'_>) -> fmt::Result {
        match self {
            Self::Var { count: numeral } | Self::Global { place: numeral } => {
                write!(formatter, "{} {numeral}", self.word())
            }
            Self::Same(row) => row.fmt(formatter),
        }
    }
}

#[cfg(test)]
mod tests {
    use super::*;
    use alloc::string::ToString;
    use alloc::vec::Vec;

    #[test]
    fn numerals_are_parts_of_the_text() {
        let text = b"(var 10) (global 2)";
        let row = |words: [u32; 8]| TextRow::new(text, &words);
        let var = row([1, 5, 2, 0, 0, 0, 0, 0]);
        assert_eq!(var, TextRow::Var { count: Atom { start: 5, bytes: b"10" } });
        assert_eq!((var.to_string().as_str(), var.children().count()), ("var 10", 0));
        assert_eq!(row([2, 17, 1, 0, 0, 0, 0, 9]).to_string(), "global 2");
        assert_eq!(row([3, 5, 1, 0, 0, 0, 0, 0]).to_string(), "universe 1");
        let pi = row([4, 3, 7, 0, 0, 0, 0, 0]);
        assert_eq!((pi.to_string().as_str(), pi.children().collect::<Vec<_>>()), ("pi 3 7", [3, 7].to_vec()));
    }

    #[test]
    #[should_panic(expected = "rules out a core row of kind 24")]
    fn no_ref_in_a_core_text() {
        TextRow::new(b"", &[24, 0, 0, 0, 0, 0, 0, 0]);
    }
}
