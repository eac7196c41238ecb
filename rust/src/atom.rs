//! Parts of a source or of a core text.
use core::fmt;

/// A name or a numeral, which is a part of the source or of the core text that was read.
#[derive(Clone, Copy, Eq, Hash, PartialEq)]
pub struct Atom<'a> {
    /// The offset of its first byte.
    pub start: usize,
    /// Its bytes, in the source or the text itself.
    pub bytes: &'a [u8],
}

impl<'a> Atom<'a> {
    /// The atom whose start and length stand in two words of a row or record.
    pub(crate) fn new(source: &'a [u8], words: &[u32]) -> Self {
        Self::at(source, words[0] as usize, words[1] as usize)
    }

    pub(crate) fn at(source: &'a [u8], start: usize, length: usize) -> Self {
        Self { start, bytes: &source[start..start + length] }
    }

    /// Its text: letters, digits and `_` of ASCII. The name of a core text's declaration is what stands between the quotes:
    /// it may have any characters but controls, and a backslash before each quote and backslash.
    pub fn as_str(&self) -> &'a str {
        core::str::from_utf8(self.bytes).expect("a name is UTF-8")
    }
}

impl fmt::Display for Atom<'_> {
    fn fmt(&self, formatter: &mut fmt::Formatter<'_>) -> fmt::Result {
        formatter.pad(self.as_str())
    }
}

impl fmt::Debug for Atom<'_> {
    fn fmt(&self, formatter: &mut fmt::Formatter<'_>) -> fmt::Result {
        write!(formatter, "{} at {}", self.as_str(), self.start)
    }
}
