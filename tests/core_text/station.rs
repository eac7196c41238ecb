//! One call with tables and a text buffer full of rubbish, and what it leaves.
#[cfg(not(mock))]
use super::library;
#[cfg(mock)]
use super::mock as library;
use crate::loading::station::{GUARD, Loaded, lend};
use crate::loading::tables::{Rubbish, Sizes, Tables};

/// Which of the two readers is asked: for texts in any layout, or for those that are their own print.
#[derive(Clone, Copy, Debug, PartialEq)]
pub enum Reader {
    Any,
    Canonical,
}

impl Reader {
    pub const BOTH: [Self; 2] = [Self::Any, Self::Canonical];
}

pub struct Printed {
    /// The class, the numbers of the answer, and the tables.
    pub loaded: Loaded,
    /// The lent buffer.
    pub text: Vec<u8>,
    /// Whether a byte beside it was changed.
    pub outside: bool,
}

const GUARD_BYTE: u8 = 0x5a;

/// Prints a source into a buffer of so many bytes.
pub fn print(source: &[u8], sizes: Sizes, length: usize, rubbish: Rubbish) -> Printed {
    let mut bytes = vec![GUARD_BYTE; length + 2 * GUARD];
    bytes[GUARD..GUARD + length].copy_from_slice(&rubbish_bytes(rubbish, length));
    let buffer = &mut bytes[GUARD..GUARD + length];
    let loaded = lend(sizes, rubbish, |lent, answer| library::print(source, lent, buffer, answer));
    let outside = bytes[..GUARD].iter().chain(&bytes[GUARD + length..]).any(|byte| *byte != GUARD_BYTE);
    let text = bytes[GUARD..GUARD + length].to_vec();
    Printed { loaded, text, outside }
}

/// Bytes that are never 0, so that one that should be cleared is seen.
fn rubbish_bytes(rubbish: Rubbish, length: usize) -> Vec<u8> {
    rubbish.words(length).into_iter().map(|word| word as u8 | 1).collect()
}

/// Reads a core text. The surface table is not lent.
pub fn read(reader: Reader, text: &[u8], sizes: Sizes, rubbish: Rubbish) -> Loaded {
    let sizes = Tables { surface: 0, ..sizes };
    lend(sizes, rubbish, |lent, answer| match reader {
        Reader::Any => library::read_core(text, lent, answer),
        Reader::Canonical => library::read_canonical(text, lent, answer),
    })
}
