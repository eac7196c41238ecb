//! The module's name, from the head of a source.
use crate::library::{self, Told};
use crate::{Atom, Refusal};

/// Bytes of a file with which [`head`] answers as with the whole file.
pub const HEAD_BYTES: usize = 65_536;

/// The module's name, from the head of a source: that in the shortest beginning of the source that would be accepted by
/// itself. It ends at the module line's parenthesis, and nothing behind it is looked at: there the source may hold
/// anything and go on over [`LONGEST_SOURCE`](crate::LONGEST_SOURCE) bytes. For a source that loads it is the name with
/// which loading begins, and keeps not.
///
/// No tables are needed, and a file need not be read whole: a name that its beginning gives is the file's, and with
/// [`HEAD_BYTES`] bytes of it, or all where there are fewer, a refusal is the file's too.
///
/// # Errors
///
/// If there is no such beginning, the [`Refusal`] of the whole source: [`Class::LongSource`](crate::Class::LongSource) by
/// its length, then [`Class::Malformed`](crate::Class::Malformed) where it is not UTF-8, and then what the head is
/// refused for: that class again, [`Class::Version`](crate::Class::Version) or
/// [`Class::ReservedName`](crate::Class::ReservedName). No other comes.
///
/// ```
/// use sulyterom::{Class, head};
///
/// let name = head(b"(surface 0 1) (module shelf) and \xff so on")?;
/// assert_eq!((name.start, name.as_str()), (22, "shelf"));
/// let refusal = head(b"(surface 0 1) (module nat)").unwrap_err();
/// assert_eq!((refusal.class, refusal.offset), (Class::ReservedName, Some(22)));
/// # Ok::<(), sulyterom::Refusal>(())
/// ```
pub fn head(source: &[u8]) -> Result<Atom<'_>, Refusal> {
    told(source, library::head(source))
}

fn told(source: &[u8], told: Told) -> Result<Atom<'_>, Refusal> {
    match told {
        (0, [2, start, length]) => Ok(Atom::at(source, start as usize, length as usize)),
        (class, answer) => Err(Refusal::from_numbers(class, answer)),
    }
}

#[cfg(test)]
mod tests {
    use super::*;
    use crate::Class;

    #[test]
    fn told_by_numbers() {
        assert_eq!(told(b"(a bc)", (0, [2, 3, 2])), Ok(Atom { start: 3, bytes: b"bc" }));
        assert_eq!(told(b"", (6, [0, 0, 0])), Err(Refusal { class: Class::LongSource, offset: None }));
        assert_eq!(told(b"", (3, [1, 9, 0])), Err(Refusal { class: Class::ReservedName, offset: Some(9) }));
    }

    #[test]
    #[should_panic(expected = "rules out 0 with [1, 3, 0]")]
    fn two_values_are_told() {
        let _ = told(b"(a bc)", (0, [1, 3, 0]));
    }
}
