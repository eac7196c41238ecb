//! Declarations as a struct.
use crate::{Atom, RECORD_WORDS};
use core::fmt;

/// How a declaration is made.
#[derive(Clone, Copy, Debug, Eq, Hash, PartialEq)]
pub enum DeclarationKind {
    /// A name and its type.
    Postulate,
    /// A name, its type, and a body that those who use it may look into.
    Transparent,
    /// A name, its type, and a body that is closed to those who use it.
    Opaque,
}

impl fmt::Display for DeclarationKind {
    fn fmt(&self, formatter: &mut fmt::Formatter<'_>) -> fmt::Result {
        formatter.pad(match self {
            Self::Postulate => "postulate",
            Self::Transparent => "transparent",
            Self::Opaque => "opaque",
        })
    }
}

/// A declaration of a loaded module, or of a core text that was read. It is shown as in the listing: kind, name, and the
/// rows of its type and body.
#[derive(Clone, Copy, Debug, Eq, Hash, PartialEq)]
pub struct Declaration<'a> {
    /// How it is made.
    pub kind: DeclarationKind,
    /// Its name.
    pub name: Atom<'a>,
    /// The row of its type.
    pub ty: usize,
    /// The row of its body, if the kind has one.
    pub body: Option<usize>,
}

impl<'a> Declaration<'a> {
    pub(crate) fn new(source: &'a [u8], record: &[u32]) -> Self {
        let &[kind, start, length, ty, body] = record else {
            unreachable!("a record has {RECORD_WORDS} words");
        };
        let kind = match kind {
            1 => DeclarationKind::Postulate,
            2 => DeclarationKind::Transparent,
            3 => DeclarationKind::Opaque,
            _ => unreachable!("the library's promise rules out a declaration of kind {kind}"),
        };
        let body = (kind != DeclarationKind::Postulate).then_some(body as usize);
        Self { kind, name: Atom::new(source, &[start, length]), ty: ty as usize, body }
    }
}

impl fmt::Display for Declaration<'_> {
    fn fmt(&self, formatter: &mut fmt::Formatter<'_>) -> fmt::Result {
        write!(formatter, "{} {} {}", self.kind, self.name, self.ty)?;
        self.body.map_or(Ok(()), |body| write!(formatter, " {body}"))
    }
}
