//! The sources and core texts that a question is asked of.
use crate::answer::NotAsked;
use crate::standard;
use std::ffi::OsStr;
use std::fmt;
use std::fs::File;
use std::io::{self, Read};
use std::path::Path;
use sulyterom::{HEAD_BYTES, LONGEST_SOURCE};

/// Bytes of a file that are read first where its head alone is wanted.
const FIRST_BYTES: usize = 4_096;

/// A source or a core text, and the name of its file.
pub struct Source {
    pub name: String,
    pub bytes: Vec<u8>,
    /// Where each line starts.
    lines: Vec<usize>,
}

/// A place in it: lines count from 1 and end at byte 10, columns count bytes from 1.
pub struct Position {
    pub line: usize,
    pub column: usize,
}

impl Source {
    fn new(name: String, bytes: Vec<u8>) -> Self {
        let ends = bytes.iter().enumerate().filter(|(_, byte)| **byte == b'\n');
        let lines = std::iter::once(0).chain(ends.map(|(at, _)| at + 1)).collect();
        Self { name, bytes, lines }
    }

    /// The source in a file, or on standard input for `-`.
    pub fn read(file: &OsStr) -> Result<Self, NotAsked> {
        Self::read_over(file, LONGEST_SOURCE)
    }

    /// The same, up to a byte over so many.
    pub fn read_over(file: &OsStr, longest: usize) -> Result<Self, NotAsked> {
        Self::read_by(file, |input| beginning(input, longest))
    }

    /// As much of it as its module's name takes: the first bytes, if they give the name, and else as many as decide.
    pub fn read_head(file: &OsStr) -> Result<Self, NotAsked> {
        Self::read_by(file, |input| as_needed(input, |bytes| sulyterom::head(bytes).is_ok()))
    }

    fn read_by(file: &OsStr, read: impl FnOnce(&File) -> io::Result<Vec<u8>>) -> Result<Self, NotAsked> {
        let (name, opened) = if file == "-" {
            (String::from("standard input"), standard::input().and_then(|input| read(&input)))
        } else {
            let name = Path::new(file).display().to_string();
            let input =
                File::open(file).map_err(|error| NotAsked(format!("cannot open {name}: {}", reason(&error))))?;
            (name, read(&input))
        };
        match opened {
            Ok(bytes) => Ok(Self::new(name, bytes)),
            Err(error) => Err(NotAsked(format!("cannot read {name}: {}", reason(&error)))),
        }
    }

    pub fn position(&self, offset: usize) -> Position {
        let line = self.lines.partition_point(|start| *start <= offset);
        Position { line, column: offset - self.lines[line - 1] + 1 }
    }
}

impl fmt::Display for Position {
    fn fmt(&self, formatter: &mut fmt::Formatter<'_>) -> fmt::Result {
        write!(formatter, "{}:{}", self.line, self.column)
    }
}

/// All bytes, but no more than a byte over so many: what is longer is then refused without reading on. A call that a
/// signal interrupts is made again.
fn beginning(input: impl Read, longest: usize) -> io::Result<Vec<u8>> {
    let mut bytes = Vec::new();
    input.take(longest as u64 + 1).read_to_end(&mut bytes)?;
    Ok(bytes)
}

/// The first bytes, if these are enough, and else the first [`HEAD_BYTES`].
fn as_needed(input: impl Read, enough: impl FnOnce(&[u8]) -> bool) -> io::Result<Vec<u8>> {
    let mut bytes = Vec::new();
    let mut input = input.take(FIRST_BYTES as u64);
    input.read_to_end(&mut bytes)?;
    if bytes.len() == FIRST_BYTES && !enough(&bytes) {
        input.set_limit((HEAD_BYTES - FIRST_BYTES) as u64);
        input.read_to_end(&mut bytes)?;
    }
    Ok(bytes)
}

/// Why a call failed, in the system's words.
pub fn reason(error: &io::Error) -> String {
    let text = error.to_string();
    text.split(" (os error").next().unwrap_or(&text).to_owned()
}

#[cfg(test)]
mod tests {
    use super::*;

    /// Bytes one at a time, each behind an interrupted call, and then perhaps a fault.
    struct Slow(Vec<u8>, bool, bool);

    impl Read for Slow {
        fn read(&mut self, buffer: &mut [u8]) -> io::Result<usize> {
            self.1 = !self.1;
            match (self.1, self.0.is_empty()) {
                (true, _) => Err(io::ErrorKind::Interrupted.into()),
                (false, true) if self.2 => Err(io::ErrorKind::BrokenPipe.into()),
                (false, true) => Ok(0),
                (false, false) => {
                    buffer[0] = self.0.remove(0);
                    Ok(1)
                }
            }
        }
    }

    #[test]
    fn interrupted_calls_are_made_again_and_a_fault_is_no_end() {
        assert_eq!(beginning(Slow(b"(surface".to_vec(), false, false), 9).unwrap(), b"(surface");
        let fault = beginning(Slow(b"(surface".to_vec(), false, true), 9).unwrap_err();
        assert_eq!(fault.kind(), io::ErrorKind::BrokenPipe);
    }

    #[test]
    fn no_more_than_a_byte_over_the_longest() {
        assert_eq!(beginning(io::repeat(b' '), LONGEST_SOURCE).unwrap().len(), LONGEST_SOURCE + 1);
    }

    #[test]
    fn no_more_than_is_needed() {
        for (enough, read) in [(true, FIRST_BYTES), (false, HEAD_BYTES)] {
            assert_eq!(as_needed(io::repeat(b' '), |_| enough).unwrap().len(), read);
        }
        let slow = Slow(vec![b' '; FIRST_BYTES + 1], false, false);
        assert_eq!(as_needed(slow, |bytes| bytes.len() != FIRST_BYTES).unwrap().len(), FIRST_BYTES + 1);
        assert_eq!(as_needed(&b"("[..], |_| unreachable!("all of it was read")).unwrap(), b"(");
    }

    #[test]
    fn lines_and_columns_from_1() {
        let source = Source::new(String::new(), b"ab\n\nc\xc3\xa9d".to_vec());
        let shown = |offset| source.position(offset).to_string();
        assert_eq!([0, 1, 2, 3, 4, 7, 8].map(shown), ["1:1", "1:2", "1:3", "2:1", "3:1", "3:4", "3:5"]);
    }
}
