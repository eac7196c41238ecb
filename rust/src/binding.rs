//! What binds a reference.
use crate::library::Told;
use crate::{Loaded, Refusal, Tables};

/// What a reference is bound by.
#[derive(Clone, Copy, Debug, Eq, Hash, PartialEq)]
pub enum Binding {
    /// A `pi`, `sigma` or `lam`: the innermost one of the reference's name in whose codomain or body it stands. An `arrow` is
    /// never the one.
    Local {
        /// How many binders stand between the two, 0 for the innermost; an `arrow` counts in its codomain.
        count: usize,
        /// The row of the form, higher than the reference's own.
        row: usize,
    },
    /// A declaration: no form binds the name.
    Global {
        /// Its place, from 0.
        place: usize,
    },
}

/// The answer of [`binder`](crate::binder), and the module that it was asked of.
#[derive(Clone, Copy, Debug)]
#[must_use]
pub struct Bound<'a> {
    /// What binds the reference.
    pub binding: Binding,
    /// What was loaded.
    pub loaded: Loaded<'a>,
}

impl<'a> Bound<'a> {
    pub(crate) fn told<W: AsRef<[u32]>>(source: &'a [u8], tables: &'a Tables<W>, told: Told) -> Result<Self, Refusal> {
        let binding = Binding::told(told)?;
        Ok(Self { binding, loaded: Loaded::found(source, tables) })
    }
}

impl Binding {
    fn told(told: Told) -> Result<Self, Refusal> {
        match told {
            (0, [2, count, row]) => Ok(Self::Local { count: count as usize, row: row as usize }),
            (0, [1, place, 0]) => Ok(Self::Global { place: place as usize }),
            (class, answer) => Err(Refusal::from_numbers(class, answer)),
        }
    }
}

#[cfg(test)]
mod tests {
    use super::*;
    use crate::Class;

    #[test]
    fn told_by_numbers() {
        assert_eq!(Binding::told((0, [2, 0, 7])), Ok(Binding::Local { count: 0, row: 7 }));
        assert_eq!(Binding::told((0, [1, 0, 0])), Ok(Binding::Global { place: 0 }));
        assert_eq!(Binding::told((12, [0, 0, 0])), Err(Refusal { class: Class::NoDeclaration, offset: None }));
        assert_eq!(Binding::told((1, [1, 9, 0])), Err(Refusal { class: Class::Malformed, offset: Some(9) }));
    }

    #[test]
    #[should_panic(expected = "rules out 0 with [0, 0, 0]")]
    fn a_reference_is_bound() {
        let _ = Binding::told((0, [0, 0, 0]));
    }
}
