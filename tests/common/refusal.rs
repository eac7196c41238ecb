//! A refusal by document 01's class number.
use std::fmt;

#[derive(Clone, Copy, Debug, PartialEq)]
pub struct Refusal {
    pub class: u8,
    /// None for "nowhere".
    pub offset: Option<usize>,
}

impl Refusal {
    pub const fn nowhere(class: u8) -> Self {
        Self { class, offset: None }
    }

    pub const fn at(class: u8, offset: usize) -> Self {
        Self { class, offset: Some(offset) }
    }
}

impl fmt::Display for Refusal {
    fn fmt(&self, out: &mut fmt::Formatter<'_>) -> fmt::Result {
        write!(out, "refused {}", self.class)?;
        self.offset.map_or(Ok(()), |offset| write!(out, " at {offset}"))
    }
}
