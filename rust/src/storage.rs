//! What a source needs.
use crate::{RECORD_WORDS, ROW_WORDS, Refusal, WORK_WORDS, library};

/// The least storage with which a source loads as it does with any more.
#[derive(Clone, Copy, Debug, Eq, Hash, PartialEq)]
pub struct Storage {
    /// Rows of the surface table, and as many of the core table: one for each term.
    pub rows: usize,
    /// Records of the declaration list.
    pub declarations: usize,
    /// Forms that are open together in one type or body, at most. They stand in the work area, which has room for
    /// [`MOST_FRAMES`](crate::MOST_FRAMES).
    pub frames: usize,
}

impl Storage {
    /// The words of each table that it is lent: surface rows, core rows, declarations, work area. The last is the same for
    /// every source.
    ///
    /// ```
    /// use sulyterom::{Storage, WORK_WORDS};
    ///
    /// let storage = Storage { rows: 4, declarations: 2, frames: 1 };
    /// assert_eq!(storage.words(), [32, 32, 10, WORK_WORDS]);
    /// ```
    #[must_use]
    pub const fn words(self) -> [usize; 4] {
        let rows = self.rows * ROW_WORDS;
        [rows, rows, self.declarations * RECORD_WORDS, WORK_WORDS]
    }
}

/// Reads a source as [`load`](crate::load) does, with no table for rows or declarations, and tells what it needs. Names are
/// not looked at. [`Loader::storage`](crate::Loader::storage) has a work area of its own, and
/// [`Tables::for_source`](crate::Tables::for_source) gives tables of these sizes.
///
/// With so many rows and declarations loading answers and leaves what it does with any more. With fewer rows it refuses with
/// [`Class::SurfaceFull`](crate::Class::SurfaceFull), with fewer declarations with
/// [`Class::DeclarationsFull`](crate::Class::DeclarationsFull).
///
/// A form with terms in it is a frame while it is open: `empty`, `unit`, `star`, `nat`, `zero`, `ref` and `universe` have 0, a
/// form has 1 more than the most of its terms, and a source has the most of its types and bodies.
///
/// The work area may hold anything before, and is 0 afterwards, whatever the answer.
///
/// # Errors
///
/// The [`Refusal`] that loading gives with tables that suffice, if that is of class 11, 6, 1, 2, 3 or 7, in the order of
/// loading. No other class comes: [`Class::DuplicateName`](crate::Class::DuplicateName) and
/// [`Class::UnknownName`](crate::Class::UnknownName) are left to loading.
///
/// ```
/// use sulyterom::{Class, Storage, Tables, WORK_WORDS, load, storage};
///
/// let source = b"(surface 0 1)(module m)(postulate x nat)(postulate y (pi x (ref x) (ref x)))";
/// let mut work = vec![7; WORK_WORDS];
/// let needs = storage(source, &mut work)?;
/// assert_eq!(needs, Storage { rows: 4, declarations: 2, frames: 1 });
/// assert!(work.iter().all(|word| *word == 0));
///
/// assert!(load(source, &mut Tables::with_sizes(needs.rows, needs.declarations)).is_ok());
/// let refusal = load(source, &mut Tables::with_sizes(needs.rows - 1, needs.declarations)).unwrap_err();
/// assert_eq!(refusal.class, Class::SurfaceFull);
/// # Ok::<(), sulyterom::Refusal>(())
/// ```
pub fn storage(source: &[u8], work: &mut [u32]) -> Result<Storage, Refusal> {
    told(library::storage(source, work))
}

fn told((class, answer): (u8, [u64; 4])) -> Result<Storage, Refusal> {
    match (class, answer) {
        (0, [3, rows, declarations, frames]) => {
            Ok(Storage { rows: rows as usize, declarations: declarations as usize, frames: frames as usize })
        }
        _ => Err(Refusal::from_four(class, answer)),
    }
}

#[cfg(test)]
mod tests {
    use super::*;
    use crate::Class;

    #[test]
    fn told_by_numbers() {
        assert_eq!(told((0, [3, 4, 2, 1])), Ok(Storage { rows: 4, declarations: 2, frames: 1 }));
        assert_eq!(told((0, [3, 0, 0, 0])), Ok(Storage { rows: 0, declarations: 0, frames: 0 }));
        assert_eq!(told((11, [0, 0, 0, 0])), Err(Refusal { class: Class::WorkShort, offset: None }));
        assert_eq!(told((3, [1, 9, 0, 0])), Err(Refusal { class: Class::ReservedName, offset: Some(9) }));
    }

    #[test]
    #[should_panic(expected = "rules out 0 with [2, 4, 2]")]
    fn three_values_are_told() {
        let _ = told((0, [2, 4, 2, 0]));
    }

    #[test]
    #[should_panic(expected = "rules out 1 with [3, 4, 2, 1]")]
    fn a_refusal_tells_no_figures() {
        let _ = told((1, [3, 4, 2, 1]));
    }
}
