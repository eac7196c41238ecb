//! Whether two sources leave the same core.
use crate::Refusal;

/// The answer of [`same`](crate::same).
#[derive(Clone, Copy, Debug, Eq, PartialEq)]
#[must_use]
pub enum Comparison {
    /// Both sources leave the same core.
    Same,
    /// They part.
    Different {
        /// The place of the first declaration at which they do, from 0: the declarations before it agree, and those
        /// there do not, or only one source has one there.
        declaration: usize,
    },
    /// The first source is refused.
    FirstRefused(Refusal),
    /// The second source is refused, and the first one is not.
    SecondRefused(Refusal),
}

impl Comparison {
    /// An answer as the library tells it: the class, how many values follow, and these.
    pub(crate) fn from_numbers(class: u8, answer: [u64; 3]) -> Self {
        match (class, answer) {
            (0, [0, 0, 0]) => Self::Same,
            (0, [1, declaration, 0]) => Self::Different { declaration: declaration as usize },
            (_, [count @ 1..=2, 1, offset]) => Self::FirstRefused(Refusal::from_numbers(class, [count - 1, offset, 0])),
            (_, [count @ 1..=2, 2, offset]) => {
                Self::SecondRefused(Refusal::from_numbers(class, [count - 1, offset, 0]))
            }
            _ => unreachable!("the library's promise rules out {class} with {answer:?}"),
        }
    }
}

#[cfg(test)]
mod tests {
    use super::*;
    use crate::Class;

    #[test]
    fn told_by_numbers() {
        let refused = |class, offset| Refusal { class, offset };
        assert_eq!(Comparison::from_numbers(0, [0, 0, 0]), Comparison::Same);
        assert_eq!(Comparison::from_numbers(0, [1, 7, 0]), Comparison::Different { declaration: 7 });
        let first = Comparison::FirstRefused(refused(Class::Malformed, Some(9)));
        assert_eq!(Comparison::from_numbers(1, [2, 1, 9]), first);
        let second = Comparison::SecondRefused(refused(Class::UnknownName, None));
        assert_eq!(Comparison::from_numbers(5, [1, 2, 0]), second);
    }

    #[test]
    #[should_panic(expected = "rules out 5 with [1, 3, 0]")]
    fn there_is_no_third_source() {
        let _ = Comparison::from_numbers(5, [1, 3, 0]);
    }
}
