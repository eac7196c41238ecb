//! Sources of edition 0 2 for the Rust, which knows 0 1 alone.
//!
//! The comparison with the Rust is kept for sources whose head is not 0 2: these it is given as they are. One whose head is 0 2 is
//! spelt in 0 1 before, and this is the only place where the tests do so. "Its core row is a pi, and in the codomain it counts as
//! one binder that no name reaches": the tag `arrow` becomes `pi` and a binder whose name stands nowhere in the source. Any other
//! atom `arrow` becomes `sigma`, which is reserved and is neither a leaf nor a numeral either. Both have five bytes, so that every
//! offset stays, those of refusals too; and what is refused is refused for the same reason. Behind a byte that can be no part of a
//! token nothing is read, and nothing is changed.
use std::collections::HashSet;
use std::ops::Range;

pub struct Spelling {
    pub source: Vec<u8>,
    /// The name that arrows bind in it.
    pub binder: [u8; 2],
}

/// The 0 1 spelling of a source whose head is 0 2; None for any other source.
pub fn spelt(source: &[u8]) -> Option<Spelling> {
    let head: Vec<&[u8]> = Tokens { source, at: 0 }.take(5).map(|token| &source[token]).collect();
    if head != [&b"("[..], b"surface", b"0", b"2", b")"] {
        return None;
    }
    let tokens: Vec<Range<usize>> = Tokens { source, at: 0 }.collect();
    let binder = unused_name(tokens.iter().map(|token| &source[token.clone()]));
    let mut spelt = source.to_vec();
    spelt[tokens[3].clone()].copy_from_slice(b"1");
    for pair in tokens.windows(2) {
        let [before, token] = [&source[pair[0].clone()], &source[pair[1].clone()]];
        let other = if before == b"(" { [b'p', b'i', b' ', binder[0], binder[1]] } else { *b"sigma" };
        if token == b"arrow" {
            spelt[pair[1].clone()].copy_from_slice(&other);
        }
    }
    Some(Spelling { source: spelt, binder })
}

/// A name of two bytes that is no atom of a source.
fn unused_name<'a>(atoms: impl Iterator<Item = &'a [u8]>) -> [u8; 2] {
    let used: HashSet<&[u8]> = atoms.filter(|atom| atom.len() == 2).collect();
    let letters = || (b'a'..=b'z').rev().chain(b'A'..=b'Z');
    let mut names = letters().flat_map(|first| letters().map(move |second| [first, second]));
    let unused = |name: &[u8; 2]| !used.contains(&name[..]) && ![b"pi", b"id"].contains(&name);
    names.find(unused).expect("no source here has every name of two letters")
}

/// The tokens up to the end, or up to a byte that can be no part of one.
struct Tokens<'a> {
    source: &'a [u8],
    at: usize,
}

impl Iterator for Tokens<'_> {
    type Item = Range<usize>;

    fn next(&mut self) -> Option<Range<usize>> {
        self.skip();
        let rest = &self.source[self.at..];
        let is_atom = |byte: &u8| byte.is_ascii_alphanumeric() || b"_-".contains(byte);
        let length = match rest.first()? {
            b'(' | b')' => 1,
            _ => {
                let length = rest.iter().take_while(|byte| is_atom(byte)).count();
                let ended = rest.get(length).is_none_or(|byte| b"() \t\n\r;".contains(byte));
                Some(length).filter(|length| *length > 0 && ended)?
            }
        };
        self.at += length;
        Some(self.at - length..self.at)
    }
}

impl Tokens<'_> {
    /// Passes over layout and comments.
    fn skip(&mut self) {
        while let Some(byte) = self.source.get(self.at) {
            let rest = &self.source[self.at..];
            self.at += match byte {
                b' ' | b'\t' | b'\n' | b'\r' => 1,
                b';' => rest.iter().position(|byte| *byte == b'\n').unwrap_or(rest.len()),
                _ => return,
            };
        }
    }
}
