//! Refusals, and how they are shown.
use core::error::Error;
use core::fmt;

/// Why a source or a core text was refused, by the numbers of documents 01 and 02.
#[derive(Clone, Copy, Debug, Eq, Hash, Ord, PartialEq, PartialOrd)]
#[non_exhaustive]
#[repr(u8)]
pub enum Class {
    /// A byte, or a token, that does not fit; with the offset of its first byte.
    Malformed = 1,
    /// The version is neither 0 1 nor 0 2; that of a core text is not 0 1, or its theory not `mltt-core`.
    Version = 2,
    /// A reserved word where a name must stand, `arrow` in edition 0 2 only; with its offset.
    ReservedName = 3,
    /// An earlier declaration has the same name.
    DuplicateName = 4,
    /// A reference to no binder and no earlier declaration.
    UnknownName = 5,
    /// The source has over [`LONGEST_SOURCE`](crate::LONGEST_SOURCE) bytes, or the core text over
    /// [`LONGEST_TEXT`](crate::LONGEST_TEXT).
    LongSource = 6,
    /// Over [`MOST_FRAMES`](crate::MOST_FRAMES) forms are open in one type or body.
    Frames = 7,
    /// The source has more terms than the surface table has rows.
    SurfaceFull = 8,
    /// The source, or core text, has more declarations than the declaration list has records.
    DeclarationsFull = 9,
    /// The source, or core text, has more terms than the core table has rows.
    CoreShort = 10,
    /// The work area has under [`WORK_WORDS`](crate::WORK_WORDS) words.
    WorkShort = 11,
    /// Dependence was asked of a place that is no declaration, or the binder of a row that is no reference.
    NoDeclaration = 12,
    /// A byte, or a token, of a core text that does not fit, with the offset of its first byte; offset 0 for a name that is
    /// used twice; or, with no offset, a text that is not its own print.
    CoreText = 13,
    /// The buffer is shorter than the text.
    TextShort = 14,
}

impl Class {
    /// All classes, by number.
    pub const ALL: &[Self] = &[
        Self::Malformed,
        Self::Version,
        Self::ReservedName,
        Self::DuplicateName,
        Self::UnknownName,
        Self::LongSource,
        Self::Frames,
        Self::SurfaceFull,
        Self::DeclarationsFull,
        Self::CoreShort,
        Self::WorkShort,
        Self::NoDeclaration,
        Self::CoreText,
        Self::TextShort,
    ];

    /// Its number in documents 01 and 02.
    #[must_use]
    pub const fn number(self) -> u8 {
        self as u8
    }
}

impl fmt::Display for Class {
    fn fmt(&self, formatter: &mut fmt::Formatter<'_>) -> fmt::Result {
        formatter.write_str(match self {
            Self::Malformed => "malformed source",
            Self::Version => "source version other than 0 1 and 0 2, or core text version other than 0 1",
            Self::ReservedName => "reserved word where a name must stand",
            Self::DuplicateName => "declaration name used before",
            Self::UnknownName => "unknown name",
            Self::LongSource => "source over 65,535 bytes, or core text over 4,294,967,295",
            Self::Frames => "more than 512 forms open in one term",
            Self::SurfaceFull => "surface row table full",
            Self::DeclarationsFull => "declaration list full",
            Self::CoreShort => "core table has fewer rows than were read",
            Self::WorkShort => "work area under 16,384 words",
            Self::NoDeclaration => "no declaration at a place asked of, or no reference at a row",
            Self::CoreText => "malformed or noncanonical core text",
            Self::TextShort => "text buffer shorter than the text",
        })
    }
}

/// A refused source or core text: its class and, for [`Class::Malformed`], [`Class::ReservedName`] and mostly for
/// [`Class::CoreText`], an offset in it.
///
/// It is shown as the listing shows it, with a sentence behind:
///
/// ```
/// # use sulyterom::{Tables, load};
/// let refusal = load(b"(surface 0 1) module", &mut Tables::with_sizes(0, 0)).unwrap_err();
/// assert_eq!(refusal.to_string(), "refused 1 at 14: malformed source");
/// let refusal = load(b"(surface 1 0)", &mut Tables::with_sizes(0, 0)).unwrap_err();
/// assert!(refusal.to_string().starts_with("refused 2: source version other than 0 1 and 0 2"));
/// ```
#[derive(Clone, Copy, Debug, Eq, Hash, PartialEq)]
pub struct Refusal {
    /// What is wrong.
    pub class: Class,
    /// Where it is, counted in bytes from 0.
    pub offset: Option<usize>,
}

impl Refusal {
    /// A refusal as the library tells it: the class, how many values follow, and these.
    pub(crate) fn from_numbers(number: u8, answer: [u64; 3]) -> Self {
        let class = Class::ALL.iter().copied().find(|class| class.number() == number);
        let offset = match answer {
            [0, 0, 0] => Some(None),
            [1, at, 0] => Some(Some(at as usize)),
            _ => None,
        };
        match (class, offset) {
            (Some(class), Some(offset)) => Self { class, offset },
            _ => unreachable!("the library's promise rules out {number} with {answer:?}"),
        }
    }

    /// The same where four numbers are told.
    pub(crate) fn from_four(number: u8, answer: [u64; 4]) -> Self {
        match answer {
            [count, at, second, 0] => Self::from_numbers(number, [count, at, second]),
            _ => unreachable!("the library's promise rules out {number} with {answer:?}"),
        }
    }
}

impl fmt::Display for Refusal {
    fn fmt(&self, formatter: &mut fmt::Formatter<'_>) -> fmt::Result {
        write!(formatter, "refused {}", self.class.number())?;
        if let Some(at) = self.offset {
            write!(formatter, " at {at}")?;
        }
        write!(formatter, ": {}", self.class)
    }
}

impl Error for Refusal {}

#[cfg(test)]
mod tests {
    use super::*;

    #[test]
    fn told_with_and_without_an_offset() {
        let offset = |number, answer| Refusal::from_numbers(number, answer).offset;
        assert_eq!(offset(1, [1, 65_535, 0]), Some(65_535));
        assert_eq!(offset(3, [1, 0, 0]), Some(0));
        assert_eq!(offset(4, [0, 0, 0]), None);
        assert_eq!(Refusal::from_numbers(11, [0, 0, 0]).class, Class::WorkShort);
    }

    #[test]
    fn told_in_four_numbers() {
        assert_eq!(Refusal::from_four(1, [1, 7, 0, 0]), Refusal { class: Class::Malformed, offset: Some(7) });
        assert_eq!(Refusal::from_four(7, [0, 0, 0, 0]), Refusal { class: Class::Frames, offset: None });
    }

    #[test]
    #[should_panic(expected = "rules out 0 with [0, 0, 0]")]
    fn no_refusal_has_number_0() {
        Refusal::from_numbers(0, [0, 0, 0]);
    }

    #[test]
    #[should_panic(expected = "rules out 5 with [2, 4, 2]")]
    fn no_refusal_has_two_values() {
        Refusal::from_numbers(5, [2, 4, 2]);
    }
}
