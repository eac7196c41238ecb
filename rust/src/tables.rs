//! The tables that are lent.
use crate::{LONGEST_SOURCE, LONGEST_TEXT, RECORD_WORDS, ROW_WORDS, Refusal, WORK_WORDS, storage};
use alloc::vec;
use alloc::vec::Vec;

/// The tables that a source is loaded into, or a core text read into, in words of 32 bits.
///
/// They may be owned (`Tables`, which is `Tables<Vec<u32>>`) or lent by someone else (`Tables<&mut [u32]>`), have any
/// lengths and hold anything. They can be used again for the next source. [`Loader`](crate::Loader) has tables of its
/// own that grow as sources need it.
///
/// ```
/// use sulyterom::{RECORD_WORDS, ROW_WORDS, Tables, WORK_WORDS, load};
///
/// let (mut surface, mut core) = ([7; 3 * ROW_WORDS], [7; 3 * ROW_WORDS]);
/// let (mut declarations, mut work) = ([7; RECORD_WORDS], [7; WORK_WORDS]);
/// let mut tables = Tables::from_words(&mut surface[..], &mut core[..], &mut declarations[..], &mut work[..]);
/// load(b"(surface 0 1)(module m)(postulate a (succ zero))", &mut tables)?;
/// load(b"(surface 0 1)(module m)(postulate b (succ (succ zero)))", &mut tables)?;
/// assert_eq!(core, [20, 0, 0, 0, 0, 0, 0, 48, 21, 0, 0, 0, 0, 0, 0, 42, 21, 1, 0, 0, 0, 0, 0, 36]);
/// # Ok::<(), sulyterom::Refusal>(())
/// ```
#[derive(Clone, Debug, Eq, PartialEq)]
pub struct Tables<W = Vec<u32>> {
    pub(crate) surface: W,
    pub(crate) core: W,
    pub(crate) declarations: W,
    pub(crate) work: W,
}

impl Tables {
    /// Tables for so many rows and declarations, all words 0.
    #[must_use]
    pub fn with_sizes(rows: usize, declarations: usize) -> Self {
        Sizes { surface: rows, core: rows, declarations }.tables()
    }

    /// Tables that are just as long as a source needs, all words 0: loading into them answers what it does with longer ones.
    /// The source is read for it, as [`storage`](crate::storage()) does.
    ///
    /// ```
    /// use sulyterom::{Class, Tables, load};
    ///
    /// let source = b"(surface 0 1)(module m)(postulate x nat)(postulate y (pi x (ref x) (ref x)))";
    /// let mut tables = Tables::for_source(source)?;
    /// assert_eq!(tables, Tables::with_sizes(4, 2));
    /// assert_eq!(load(source, &mut tables)?.declaration_count(), 2);
    /// // names are looked at by loading alone
    /// let source = b"(surface 0 1)(module m)(postulate x (ref q))";
    /// assert_eq!(load(source, &mut Tables::for_source(source)?).unwrap_err().class, Class::UnknownName);
    /// # Ok::<(), sulyterom::Refusal>(())
    /// ```
    ///
    /// # Errors
    ///
    /// A [`Refusal`] of class 1, 2, 3, 6 or 7: so loading refuses the source with tables of any sizes that suffice.
    pub fn for_source(source: &[u8]) -> Result<Self, Refusal> {
        let mut work = vec![0; WORK_WORDS];
        let [surface, core, declarations, _] = storage(source, &mut work)?.words();
        Ok(Self { surface: vec![0; surface], core: vec![0; core], declarations: vec![0; declarations], work })
    }

    /// Tables that suffice for every source of so many bytes: a term has at least 3 and a declaration at least 17. That they
    /// do is proved, of sources that are refused too.
    ///
    /// Most sources need much less, which [`Tables::for_source`] lends. Spare words are set to 0 by every load, which takes
    /// time.
    #[must_use]
    pub fn for_bytes(bytes: usize) -> Self {
        Needs::of_source(bytes).most.tables()
    }

    /// Tables that suffice for every core text of so many bytes: in it too a term has at least 3 and a declaration at
    /// least 17, which is proved too. There are no surface rows.
    #[must_use]
    pub fn for_text(bytes: usize) -> Self {
        Needs::of_text(bytes).most.tables()
    }

    pub(crate) const fn empty() -> Self {
        Self { surface: Vec::new(), core: Vec::new(), declarations: Vec::new(), work: Vec::new() }
    }

    /// A work area as long as is needed.
    pub(crate) fn work_area(&mut self) -> &mut [u32] {
        self.work.resize(WORK_WORDS, 0);
        &mut self.work
    }

    /// The tables with these sizes and no word more: a call has to clear no spare words, and behind what it leaves there
    /// are none of a call before. The memory is kept.
    pub(crate) fn resized(&mut self, Sizes { surface, core, declarations }: Sizes) -> Tables<&mut [u32]> {
        self.surface.resize(surface * ROW_WORDS, 0);
        self.core.resize(core * ROW_WORDS, 0);
        self.declarations.resize(declarations * RECORD_WORDS, 0);
        self.work_area();
        self.lend()
    }
}

/// How many rows of each kind and declarations there is room for.
#[derive(Clone, Copy, Debug, Eq, PartialEq)]
pub(crate) struct Sizes {
    pub surface: usize,
    pub core: usize,
    pub declarations: usize,
}

impl Sizes {
    fn tables(self) -> Tables {
        Tables {
            surface: vec![0; self.surface * ROW_WORDS],
            core: vec![0; self.core * ROW_WORDS],
            declarations: vec![0; self.declarations * RECORD_WORDS],
            work: vec![0; WORK_WORDS],
        }
    }
}

/// What a source or a core text needs.
#[derive(Clone, Copy, Debug, Eq, PartialEq)]
pub(crate) struct Needs {
    /// What most of that length need at most.
    pub likely: Sizes,
    /// The most that one of that length can need.
    pub most: Sizes,
}

impl Needs {
    /// Of a source of so many bytes.
    pub fn of_source(bytes: usize) -> Self {
        let bytes = bytes.min(LONGEST_SOURCE);
        let sizes = |rows, declarations| Sizes { surface: rows, core: rows, declarations };
        Self { likely: sizes(bytes / 6, bytes / 32), most: sizes(bytes / 3, bytes / 17) }
    }

    /// Of a core text of so many bytes. One that is too long needs nothing: it is refused unread.
    pub fn of_text(bytes: usize) -> Self {
        let bytes = if bytes > LONGEST_TEXT { 0 } else { bytes };
        let sizes = |core, declarations| Sizes { surface: 0, core, declarations };
        Self { likely: sizes(bytes / 6, bytes / 32), most: sizes(bytes / 3, bytes / 17) }
    }
}

impl<W> Tables<W> {
    /// Tables from the words of each: the rows as they are read and the rows with names resolved, [`ROW_WORDS`] words
    /// each, the declarations' records, [`RECORD_WORDS`] words each, and the work area, [`WORK_WORDS`] words or every
    /// source is refused.
    pub const fn from_words(surface: W, core: W, declarations: W, work: W) -> Self {
        Self { surface, core, declarations, work }
    }

    /// The words of each: surface rows, core rows, declarations, work area.
    pub fn into_words(self) -> [W; 4] {
        [self.surface, self.core, self.declarations, self.work]
    }
}

impl<W: AsRef<[u32]>> Tables<W> {
    /// The rows as they were read.
    pub fn surface(&self) -> &[u32] {
        self.surface.as_ref()
    }

    /// The rows with names resolved.
    pub fn core(&self) -> &[u32] {
        self.core.as_ref()
    }

    /// The records of the declarations.
    pub fn declarations(&self) -> &[u32] {
        self.declarations.as_ref()
    }

    /// The work area.
    pub fn work(&self) -> &[u32] {
        self.work.as_ref()
    }
}

impl<W: AsMut<[u32]>> Tables<W> {
    /// The same tables, lent by these.
    pub fn lend(&mut self) -> Tables<&mut [u32]> {
        Tables {
            surface: self.surface.as_mut(),
            core: self.core.as_mut(),
            declarations: self.declarations.as_mut(),
            work: self.work.as_mut(),
        }
    }
}
