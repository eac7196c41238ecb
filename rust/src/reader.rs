//! Which reader reads a source.

/// The reader by which a source is read.
///
/// There are two, and either may stand in a station: for every source, and for tables of any lengths that hold anything,
/// both give the same answer, or the same refusal, and leave the same words in every table. That is proved. What follows
/// reading, which turns names into numbers, is shared.
///
/// They differ in how they are written and in the stack that they take. [`Reader::Frames`] is the choice where a thread has
/// little stack. [`Reader::Plain`] is for whoever wants to follow the code by which a station reads, or to set one reader
/// against the other.
///
/// ```
/// use sulyterom::{Class, Reader, Tables, load_by};
///
/// let source = b"(surface 0 1)(module m)(postulate x nat)(postulate y (pi x (ref x) (ref x)))";
/// let (mut tables, mut others) = (Tables::with_sizes(4, 2), Tables::with_sizes(4, 2));
/// assert_eq!(load_by(source, &mut tables, Reader::Frames)?.row_count(), 4);
/// assert_eq!(load_by(source, &mut others, Reader::Plain)?.row_count(), 4);
/// assert_eq!(tables, others);
///
/// // Refusals are the same too: this one, though the plain reader needs no work area.
/// let mut short = Tables::from_words(vec![7; 32], vec![7; 32], vec![7; 10], vec![7; 100]);
/// assert_eq!(load_by(source, &mut short, Reader::Plain).unwrap_err().class, Class::WorkShort);
/// assert_eq!(short.work(), [0; 100]);
/// # Ok::<(), sulyterom::Refusal>(())
/// ```
#[derive(Clone, Copy, Debug, Default, Eq, Hash, PartialEq)]
pub enum Reader {
    /// Keeps the forms that are open as frames in the work area. Its stack does not grow with their number: a call takes less
    /// than `SULYTEROM_STACK_BYTES` of include/sulyterom.h.
    #[default]
    Frames,
    /// Is written as the grammar reads: a form reads its terms, and a term that is a form calls the reader again, at most 513
    /// deep. A call takes less than `SULYTEROM_PLAIN_STACK_BYTES` of include/sulyterom.h, which is measured and not proved.
    Plain,
}
