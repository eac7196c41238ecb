//! Whether one declaration depends on another.
use crate::library::Told;
use crate::{Loaded, Refusal, Tables};

/// The answer of [`depends`](crate::depends), and the module that it was asked of.
#[derive(Clone, Copy, Debug)]
#[must_use]
pub struct Dependence<'a> {
    /// For a yes, the first global row in `i`'s type or body that names a place that shows `j`: of all that do the one with
    /// the lowest number, in the type before the body. The place need not be `j`, even where a later row names `j` itself.
    pub row: Option<usize>,
    /// What was loaded.
    pub loaded: Loaded<'a>,
}

impl<'a> Dependence<'a> {
    pub(crate) fn told<W: AsRef<[u32]>>(source: &'a [u8], tables: &'a Tables<W>, told: Told) -> Result<Self, Refusal> {
        let row = match told {
            (0, [0, 0, 0]) => None,
            (0, [1, row, 0]) => Some(row as usize),
            (class, answer) => return Err(Refusal::from_numbers(class, answer)),
        };
        Ok(Self { row, loaded: Loaded::found(source, tables) })
    }
}
