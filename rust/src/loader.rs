//! Tables that are kept and grow.
use crate::library::Told;
use crate::tables::{Needs, Sizes};
use crate::{
    Bound, Comparison, CoreText, Dependence, Listing, Loaded, Printed, Reader, Refusal, Storage, Tables, library,
    storage, text_room,
};
use alloc::vec;
use alloc::vec::Vec;

/// A loader with tables of its own, which are kept from one source or core text to the next and grow as these need it,
/// so that none is refused for their sizes.
///
/// ```
/// use sulyterom::{Binding, Comparison, Loader};
///
/// let mut loader = Loader::new();
/// let source = b"(surface 0 1)(module m)(postulate x nat)(postulate y (ref x))";
/// assert_eq!(loader.load(source)?.row_count(), 2);
/// assert_eq!(loader.depends(source, 1, 0)?.row, Some(1));
/// assert_eq!(loader.binder(source, 1)?.binding, Binding::Global { place: 0 });
/// assert_eq!(loader.same(source, b"(surface 0 1)(module n)"), Comparison::Different { declaration: 0 });
/// let text = loader.print(source)?;
/// assert_eq!(loader.read_canonical(&text)?.row_count(), 2);
/// # Ok::<(), sulyterom::Refusal>(())
/// ```
#[derive(Clone, Debug)]
pub struct Loader {
    tables: Tables,
    others: Tables,
    /// Whether something needed more than others of its length are likely to: the next may be of that kind too.
    dense: bool,
    reader: Reader,
}

impl Loader {
    /// A loader that has no tables yet, and reads by frames.
    #[must_use]
    pub const fn new() -> Self {
        Self::with_reader(Reader::Frames)
    }

    /// A loader that has no tables yet, with a reader of choice for [`Loader::load`] and [`Loader::list`]. The questions
    /// (`depends`, `dependents`, `binder`, `same`, `print` and `storage`) read by frames whatever was chosen, and have the
    /// same answers.
    ///
    /// ```
    /// use sulyterom::{Loader, Reader};
    ///
    /// let source = b"(surface 0 1)(module m)(postulate x nat)(postulate y (ref x))";
    /// let mut plain = Loader::with_reader(Reader::Plain);
    /// assert_eq!(plain.load(source)?.row_count(), 2);
    /// assert_eq!(plain.list(source), Loader::new().list(source));
    /// # Ok::<(), sulyterom::Refusal>(())
    /// ```
    #[must_use]
    pub const fn with_reader(reader: Reader) -> Self {
        Self { tables: Tables::empty(), others: Tables::empty(), dense: false, reader }
    }

    /// Loads a source, as [`load`](crate::load) does.
    ///
    /// # Errors
    ///
    /// A [`Refusal`] that stands for every size of tables: class 1 to 7.
    pub fn load<'a>(&'a mut self, source: &'a [u8]) -> Result<Loaded<'a>, Refusal> {
        let (tables, dense, reader) = (&mut self.tables, &mut self.dense, self.reader);
        let needs = Needs::of_source(source.len());
        let told = enough(dense, [needs], |[sizes]| library::load(source, tables.resized(sizes), reader));
        Loaded::told(source, tables, told)
    }

    /// Tells what a source needs, as [`storage`](crate::storage()) does. The loader does not grow by it.
    ///
    /// ```
    /// let needs = sulyterom::Loader::new().storage(b"(surface 0 1)(module m)(opaque x nat (succ (succ zero)))")?;
    /// assert_eq!((needs.rows, needs.declarations, needs.frames), (4, 1, 2));
    /// # Ok::<(), sulyterom::Refusal>(())
    /// ```
    ///
    /// # Errors
    ///
    /// A [`Refusal`] of class 1, 2, 3, 6 or 7.
    pub fn storage(&mut self, source: &[u8]) -> Result<Storage, Refusal> {
        storage(source, self.tables.work_area())
    }

    /// Gives a source's listing, as [`list`](crate::list) does.
    pub fn list(&mut self, source: &[u8]) -> Listing {
        let (tables, dense, reader) = (&mut self.tables, &mut self.dense, self.reader);
        let needs = Needs::of_source(source.len());
        Listing::with_room(crate::room(source), |text| {
            enough(dense, [needs], |[sizes]| library::list(source, tables.resized(sizes), reader, text))
        })
    }

    /// Asks whether the declaration at place `i` depends on the one at place `j`, and for the first row by which it does, as
    /// [`depends`](crate::depends) does.
    ///
    /// ```
    /// # use sulyterom::Loader;
    /// // z depends on x by row 2, which names y, and by row 3, which names x itself
    /// let source = b"(surface 0 1)(module m)(postulate x nat)(postulate y (ref x))(opaque z (ref y) (ref x))";
    /// assert_eq!(Loader::new().depends(source, 2, 0)?.row, Some(2));
    /// # Ok::<(), sulyterom::Refusal>(())
    /// ```
    ///
    /// # Errors
    ///
    /// A [`Refusal`] of class 1 to 7 or 12.
    pub fn depends<'a>(&'a mut self, source: &'a [u8], i: usize, j: usize) -> Result<Dependence<'a>, Refusal> {
        let (tables, dense) = (&mut self.tables, &mut self.dense);
        let needs = Needs::of_source(source.len());
        let told = enough(dense, [needs], |[sizes]| library::depends(source, i, j, tables.resized(sizes)));
        Dependence::told(source, tables, told)
    }

    /// The places of all declarations that depend on the one at place `j`, ascending: those that may have to be looked at
    /// again when it is withdrawn.
    ///
    /// Each place behind `j` is asked of as [`depends`](crate::depends) does, and the source is loaded for each.
    ///
    /// ```
    /// # use sulyterom::Loader;
    /// // z depends on x through the type of y; w names only z, whose body is opaque
    /// let source = b"(surface 0 1)(module m)(postulate x (universe 0))(postulate y (ref x))\
    ///     (opaque z nat (ref y))(postulate w (ref z))";
    /// assert_eq!(Loader::new().dependents(source, 0)?, [1, 2]);
    /// assert_eq!(Loader::new().dependents(source, 2)?, [3]);
    /// assert!(Loader::new().dependents(source, 3)?.is_empty());
    /// # Ok::<(), sulyterom::Refusal>(())
    /// ```
    ///
    /// # Errors
    ///
    /// A [`Refusal`] of class 1 to 7, or 12 if `j` is not the place of a declaration.
    pub fn dependents(&mut self, source: &[u8], j: usize) -> Result<Vec<usize>, Refusal> {
        // no declaration depends on itself: this one is asked for its refusal
        let count = self.depends(source, j, j)?.loaded.declaration_count();
        let mut places = Vec::new();
        for i in j + 1..count {
            if self.depends(source, i, j)?.row.is_some() {
                places.push(i);
            }
        }
        Ok(places)
    }

    /// Asks what binds the reference at a row, as [`binder`](crate::binder) does.
    ///
    /// ```
    /// # use sulyterom::{Binding, Loader};
    /// let source = b"(surface 0 1)(module m)(transparent f nat (lam x (lam x (app (ref x) zero))))";
    /// let mut loader = Loader::new();
    /// let rows: Vec<usize> = loader.load(source)?.references().map(|reference| reference.row).collect();
    /// assert_eq!(rows, [1]);
    /// let bound = loader.binder(source, rows[0])?;
    /// // the inner lam, which ends before the outer one
    /// assert_eq!(bound.binding, Binding::Local { count: 0, row: 4 });
    /// assert_eq!(bound.loaded.offset(4), Some(49));
    /// # Ok::<(), sulyterom::Refusal>(())
    /// ```
    ///
    /// # Errors
    ///
    /// A [`Refusal`] of class 1 to 7 or 12.
    pub fn binder<'a>(&'a mut self, source: &'a [u8], row: usize) -> Result<Bound<'a>, Refusal> {
        let (tables, dense) = (&mut self.tables, &mut self.dense);
        let needs = Needs::of_source(source.len());
        let told = enough(dense, [needs], |[sizes]| library::binder(source, row, tables.resized(sizes)));
        Bound::told(source, tables, told)
    }

    /// Asks whether two sources leave the same core, as [`same`](crate::same) does.
    pub fn same(&mut self, first: &[u8], second: &[u8]) -> Comparison {
        let (tables, others, dense) = (&mut self.tables, &mut self.others, &mut self.dense);
        let needs = [first, second].map(|source| Needs::of_source(source.len()));
        let (class, answer) = enough(dense, needs, |[one, other]| {
            library::same(first, second, tables.resized(one), others.resized(other))
        });
        Comparison::from_numbers(class, answer)
    }

    /// Gives a source's core text, as [`print`](crate::print) does, in a buffer of its own.
    ///
    /// ```
    /// let text = sulyterom::Loader::new().print(b"(surface 0 1)(module m)(postulate f (pi n nat (ref n)))")?;
    /// let declarations = r#"(declarations (postulate "f" (pi nat (var 0)))))"#;
    /// assert_eq!(text, format!("(hott-core (format 0 1) (theory \"mltt-core\" 0 1) {declarations}\n").as_bytes());
    /// # Ok::<(), sulyterom::Refusal>(())
    /// ```
    ///
    /// # Errors
    ///
    /// A [`Refusal`] that stands for every size of tables: class 1 to 7.
    pub fn print(&mut self, source: &[u8]) -> Result<Vec<u8>, Refusal> {
        let (tables, dense) = (&mut self.tables, &mut self.dense);
        let mut text = vec![0; text_room(source.len())];
        let needs = Needs::of_source(source.len());
        let told = enough(dense, [needs], |[sizes]| library::print(source, tables.resized(sizes), &mut text));
        text.truncate(Printed::length(told)?);
        Ok(text)
    }

    /// Reads a core text in any layout, as [`read_core`](crate::read_core) does.
    ///
    /// # Errors
    ///
    /// A [`Refusal`] that stands for every size of tables: class 2, 6, 7 or 13.
    pub fn read_core<'a>(&'a mut self, text: &'a [u8]) -> Result<CoreText<'a>, Refusal> {
        self.read(text, library::read_core)
    }

    /// Reads a core text that is its own print, as [`read_canonical`](crate::read_canonical) does.
    ///
    /// # Errors
    ///
    /// As [`Loader::read_core`], and class 13 without an offset for a text that is not its own print.
    pub fn read_canonical<'a>(&'a mut self, text: &'a [u8]) -> Result<CoreText<'a>, Refusal> {
        self.read(text, library::read_canonical)
    }

    fn read<'a>(
        &'a mut self,
        text: &'a [u8],
        ask: impl Fn(&[u8], Tables<&mut [u32]>) -> Told,
    ) -> Result<CoreText<'a>, Refusal> {
        let (tables, dense) = (&mut self.tables, &mut self.dense);
        let told = enough(dense, [Needs::of_text(text.len())], |[sizes]| ask(text, tables.resized(sizes)));
        CoreText::told(text, tables, told)
    }
}

impl Default for Loader {
    fn default() -> Self {
        Self::new()
    }
}

/// Asks with the sizes that are likely to be needed and, where a table is too short, once more with the most that can be
/// needed; from then on at once with these.
fn enough<const N: usize, T>(
    dense: &mut bool,
    needs: [Needs; N],
    mut ask: impl FnMut([Sizes; N]) -> (u8, T),
) -> (u8, T) {
    if !*dense {
        match ask(needs.map(|needs| needs.likely)) {
            (8..=10, _) => *dense = true,
            told => return told,
        }
    }
    ask(needs.map(|needs| needs.most))
}
