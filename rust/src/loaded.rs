//! What a load leaves, to be looked at.
use crate::library::Told;
use crate::{Declaration, RECORD_WORDS, ROW_WORDS, Reference, Refusal, Row, SurfaceRow, Tables, TokenKind, tokens};
use core::fmt;

/// A source that was loaded, and what the tables hold of it.
///
/// It is shown as the listing of document 01:
///
/// ```
/// # use sulyterom::{Tables, load};
/// let source = b"(surface 0 1)(module m)(postulate x nat)(postulate y (pi x (ref x) (ref x)))";
/// let mut tables = Tables::with_sizes(4, 2);
/// let listing = "\
/// nodes 4 declarations 2
/// 0 nat
/// 1 global 0
/// 2 var 0
/// 3 pi 1 2
/// 0 postulate x 0
/// 1 postulate y 3
/// ";
/// assert_eq!(load(source, &mut tables)?.to_string(), listing);
/// # Ok::<(), sulyterom::Refusal>(())
/// ```
#[derive(Clone, Copy, Debug)]
pub struct Loaded<'a> {
    source: &'a [u8],
    surface: &'a [u32],
    core: &'a [u32],
    declarations: &'a [u32],
}

impl<'a> Loaded<'a> {
    /// What the tables hold after a load with this answer.
    pub(crate) fn told<W: AsRef<[u32]>>(source: &'a [u8], tables: &'a Tables<W>, told: Told) -> Result<Self, Refusal> {
        match told {
            (0, [2, rows, declarations]) => Ok(Self::new(source, tables, rows as usize, declarations as usize)),
            (class, answer) => Err(Refusal::from_numbers(class, answer)),
        }
    }

    /// What the tables hold after an acceptance: behind the last row and record they are 0, which is no kind.
    pub(crate) fn found<W: AsRef<[u32]>>(source: &'a [u8], tables: &'a Tables<W>) -> Self {
        let count = |table: &[u32], words: usize| {
            let (mut low, mut high) = (0, table.len() / words);
            while low < high {
                let middle = low.midpoint(high);
                if table[middle * words] == 0 { high = middle } else { low = middle + 1 }
            }
            low
        };
        let rows = count(tables.core(), ROW_WORDS);
        Self::new(source, tables, rows, count(tables.declarations(), RECORD_WORDS))
    }

    fn new<W: AsRef<[u32]>>(source: &'a [u8], tables: &'a Tables<W>, rows: usize, declarations: usize) -> Self {
        Self {
            source,
            surface: &tables.surface()[..rows * ROW_WORDS],
            core: &tables.core()[..rows * ROW_WORDS],
            declarations: &tables.declarations()[..declarations * RECORD_WORDS],
        }
    }

    /// The source.
    pub fn source(&self) -> &'a [u8] {
        self.source
    }

    /// How many rows each of the two row tables has.
    pub fn row_count(&self) -> usize {
        self.core.len() / ROW_WORDS
    }

    /// How many declarations there are.
    pub fn declaration_count(&self) -> usize {
        self.declarations.len() / RECORD_WORDS
    }

    /// The core row with a number.
    pub fn row(&self, number: usize) -> Option<Row<'a>> {
        self.core.chunks_exact(ROW_WORDS).nth(number).map(|words| Row::new(self.source, words))
    }

    /// The core rows, by number from 0: every row after its children.
    pub fn rows(&self) -> impl ExactSizeIterator<Item = Row<'a>> + DoubleEndedIterator + use<'a> {
        let source = self.source;
        self.core.chunks_exact(ROW_WORDS).map(move |words| Row::new(source, words))
    }

    /// The surface row with a number.
    ///
    /// ```
    /// # use sulyterom::{SurfaceRow, Tables, load};
    /// let mut tables = Tables::with_sizes(3, 1);
    /// let loaded = load(b"(surface 0 1)(module m)(postulate f (pi n nat nat))", &mut tables)?;
    /// let Some(SurfaceRow::Pi { binder, .. }) = loaded.surface_row(2) else { panic!() };
    /// assert_eq!((binder.as_str(), binder.start), ("n", 40));
    /// # Ok::<(), sulyterom::Refusal>(())
    /// ```
    pub fn surface_row(&self, number: usize) -> Option<SurfaceRow<'a>> {
        self.surface.chunks_exact(ROW_WORDS).nth(number).map(|words| SurfaceRow::new(self.source, words))
    }

    /// The surface rows, by number from 0.
    pub fn surface_rows(&self) -> impl ExactSizeIterator<Item = SurfaceRow<'a>> + DoubleEndedIterator + use<'a> {
        let source = self.source;
        self.surface.chunks_exact(ROW_WORDS).map(move |words| SurfaceRow::new(source, words))
    }

    /// The offset in the source at which the term of a row starts: that of its opening parenthesis, or of its word where it
    /// is `empty`, `unit`, `star`, `nat` or `zero`. The surface row and the core row with a number have the same one.
    ///
    /// ```
    /// # use sulyterom::{Tables, load};
    /// let source = b"(surface 0 1)(module m)(postulate f (pi n nat (ref n)))";
    /// let mut tables = Tables::with_sizes(3, 1);
    /// let loaded = load(source, &mut tables)?;
    /// assert_eq!(loaded.offsets().collect::<Vec<_>>(), [42, 46, 36]);
    /// assert_eq!((loaded.offset(2), loaded.offset(3)), (Some(36), None));
    /// # Ok::<(), sulyterom::Refusal>(())
    /// ```
    pub fn offset(&self, number: usize) -> Option<usize> {
        self.core.chunks_exact(ROW_WORDS).nth(number).map(start)
    }

    /// The offsets at which the terms of the rows start, by number from 0.
    pub fn offsets(&self) -> impl ExactSizeIterator<Item = usize> + DoubleEndedIterator + use<'a> {
        self.core.chunks_exact(ROW_WORDS).map(start)
    }

    /// The term of a row as it is written, from its first byte to its last.
    ///
    /// ```
    /// # use sulyterom::{Tables, load};
    /// let source = b"(surface 0 1)(module m)(postulate f (pi n nat (ref ;\n n)))";
    /// let mut tables = Tables::with_sizes(3, 1);
    /// let loaded = load(source, &mut tables)?;
    /// assert_eq!((loaded.term(0), loaded.term(1)), (Some(&b"nat"[..]), Some(&b"(ref ;\n n)"[..])));
    /// # Ok::<(), sulyterom::Refusal>(())
    /// ```
    pub fn term(&self, number: usize) -> Option<&'a [u8]> {
        let from = &self.source[self.offset(number)?..];
        let mut open = 0;
        let end = tokens(from).map_while(Result::ok).find(|token| {
            match token.kind {
                TokenKind::LeftParenthesis => open += 1,
                TokenKind::RightParenthesis => open -= 1,
                _ => {}
            }
            open == 0
        });
        end.map(|token| &from[..token.end])
    }

    /// The declaration at a place.
    pub fn declaration(&self, place: usize) -> Option<Declaration<'a>> {
        self.declarations.chunks_exact(RECORD_WORDS).nth(place).map(|record| Declaration::new(self.source, record))
    }

    /// The declarations, by place from 0.
    pub fn declarations(&self) -> impl ExactSizeIterator<Item = Declaration<'a>> + DoubleEndedIterator + use<'a> {
        let source = self.source;
        self.declarations.chunks_exact(RECORD_WORDS).map(move |record| Declaration::new(source, record))
    }

    /// The place of the declaration with a name.
    pub fn place_of(&self, name: &[u8]) -> Option<usize> {
        self.declarations().position(|declaration| declaration.name.bytes == name)
    }

    /// The references, in the order of the source. Which form binds one is told by [`binder`](crate::binder).
    ///
    /// ```
    /// # use sulyterom::{Loader, Target};
    /// let mut loader = Loader::new();
    /// let loaded = loader.load(b"(surface 0 1)(module m)(postulate x nat)(postulate y (pi x (ref x) (ref x)))")?;
    /// let found: Vec<_> = loaded.references().map(|it| (it.name.start, it.name.as_str(), it.target)).collect();
    /// assert_eq!(found, [(64, "x", Target::Global { place: 0 }), (72, "x", Target::Var { count: 0 })]);
    /// # Ok::<(), sulyterom::Refusal>(())
    /// ```
    pub fn references(&self) -> impl DoubleEndedIterator<Item = Reference<'a>> + use<'a> {
        let both = self.surface_rows().zip(self.rows()).enumerate();
        both.filter_map(|(row, (read, core))| Reference::of(row, read, core))
    }
}

/// The last word of a row.
fn start(row: &[u32]) -> usize {
    row[ROW_WORDS - 1] as usize
}

impl fmt::Display for Loaded<'_> {
    fn fmt(&self, formatter: &mut fmt::Formatter<'_>) -> fmt::Result {
        writeln!(formatter, "nodes {} declarations {}", self.row_count(), self.declaration_count())?;
        for (number, row) in self.rows().enumerate() {
            writeln!(formatter, "{number} {row}")?;
        }
        for (place, declaration) in self.declarations().enumerate() {
            writeln!(formatter, "{place} {declaration}")?;
        }
        Ok(())
    }
}
