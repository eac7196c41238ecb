//! A source's core text in a buffer that is lent.
use crate::library::Told;
use crate::{Loaded, Refusal, Tables};

/// The answer of [`print`](crate::print): the text, and the module that it is of.
#[derive(Clone, Copy, Debug)]
#[must_use]
pub struct Printed<'a> {
    /// The core text, in the beginning of the buffer; behind it the buffer is 0.
    pub text: &'a [u8],
    /// What was loaded.
    pub loaded: Loaded<'a>,
}

impl<'a> Printed<'a> {
    pub(crate) fn told<W: AsRef<[u32]>>(
        source: &'a [u8],
        tables: &'a Tables<W>,
        text: &'a [u8],
        told: Told,
    ) -> Result<Self, Refusal> {
        let length = Self::length(told)?;
        Ok(Self { text: &text[..length], loaded: Loaded::found(source, tables) })
    }

    /// The length of the text.
    pub(crate) fn length(told: Told) -> Result<usize, Refusal> {
        match told {
            (0, [1, length, 0]) => Ok(length as usize),
            (class, answer) => Err(Refusal::from_numbers(class, answer)),
        }
    }
}

#[cfg(test)]
mod tests {
    use super::*;
    use crate::Class;

    #[test]
    fn told_by_numbers() {
        assert_eq!(Printed::length((0, [1, 65, 0])), Ok(65));
        assert_eq!(Printed::length((14, [0, 0, 0])), Err(Refusal { class: Class::TextShort, offset: None }));
        assert_eq!(Printed::length((1, [1, 9, 0])), Err(Refusal { class: Class::Malformed, offset: Some(9) }));
    }

    #[test]
    #[should_panic(expected = "rules out 0 with [2, 65, 0]")]
    fn one_value_is_told() {
        let _ = Printed::length((0, [2, 65, 0]));
    }
}
