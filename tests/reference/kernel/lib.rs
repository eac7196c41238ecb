// The crate around the unchanged files of docs/src: the modules that reading uses, and no others.
#![allow(dead_code)]

pub mod error;
pub mod format;
pub mod surface;
pub mod syntax;

/// A token, or the byte that is refused in its place.
#[derive(Clone, Copy, Debug, Eq, PartialEq)]
pub enum Lexed {
    LParen(usize),
    RParen(usize),
    Atom { start: usize, end: usize },
    Eof(usize),
    Refused(usize),
}

/// Public access to the private parts of surface/parser.rs.
/// The stub surface/compile.rs has its functions, since only a module inside `surface` reaches them.
pub struct ParserParts;
