//! The words of the command line.
use crate::answer::{Answer, NotAsked, Status};
use crate::questions::{self, Declaration, Layout, Storage};
use std::ffi::{OsStr, OsString};
use std::path::Path;
use sulyterom::Reader;

const HELP: &str = include_str!("../help.txt");

/// Words of the repository's script, which the program does not have.
const SCRIPT_WORDS: [&str; 3] = ["build", "install", "dist"];

/// A question as it stands on the command line.
pub enum Question<'a> {
    Help,
    Version,
    List(Storage, Reader, &'a OsStr),
    Rows(&'a OsStr),
    References(&'a OsStr),
    Depends(&'a OsStr, Declaration<'a>, Declaration<'a>),
    Dependents(&'a OsStr, Declaration<'a>),
    Binder(&'a OsStr, usize),
    Same(&'a OsStr, &'a OsStr),
    Tokens(&'a OsStr),
    Head(Vec<&'a OsStr>),
    Size(&'a OsStr),
    Core(&'a OsStr),
    ReadCore(Layout, &'a OsStr),
}

/// The question that the words ask.
pub fn parsed(words: &[OsString]) -> Result<Question<'_>, NotAsked> {
    let words: Vec<&OsStr> = words.iter().map(OsString::as_os_str).collect();
    let Some((word, rest)) = words.split_first() else {
        return Err(NotAsked(String::from("no question: 'sulyterom --help' has the words")));
    };
    match (word.to_str().unwrap_or(""), rest) {
        ("--help" | "-h" | "help", []) => Ok(Question::Help),
        ("--version", []) => Ok(Question::Version),
        ("list", [options @ .., file]) => {
            let (storage, reader) = list_options(options).ok_or_else(|| misused("list", word))?;
            Ok(Question::List(storage, reader, file))
        }
        ("rows", [file]) => Ok(Question::Rows(file)),
        ("references", [file]) => Ok(Question::References(file)),
        ("tokens", [file]) => Ok(Question::Tokens(file)),
        ("head", [_, ..]) => Ok(Question::Head(rest.to_vec())),
        ("size", [file]) => Ok(Question::Size(file)),
        ("core", [file]) => Ok(Question::Core(file)),
        ("readcore", [file, canonical] | [canonical, file]) if *canonical == "--canonical" => {
            Ok(Question::ReadCore(Layout::Canonical, file))
        }
        ("readcore", [file]) => Ok(Question::ReadCore(Layout::Any, file)),
        ("same", [one, other]) => Ok(Question::Same(one, other)),
        ("binder", [file, row]) => Ok(Question::Binder(file, questions::row(row)?)),
        ("depends", [file, i, j]) => Ok(Question::Depends(file, Declaration::named(i)?, Declaration::named(j)?)),
        ("dependents", [file, j]) => Ok(Question::Dependents(file, Declaration::named(j)?)),
        (known, _) => Err(misused(known, word)),
    }
}

/// What the words between `list` and its file ask for: each option may stand once, in any order.
fn list_options(options: &[&OsStr]) -> Option<(Storage, Reader)> {
    let (mut storage, mut reader) = (None, None);
    for option in options {
        let first = match option.to_str()? {
            "--large" => storage.replace(Storage::Large).is_none(),
            "--plain" => reader.replace(Reader::Plain).is_none(),
            _ => false,
        };
        if !first {
            return None;
        }
    }
    Some((storage.unwrap_or(Storage::Document01), reader.unwrap_or_default()))
}

/// A word that there is not, or with other words behind it than it takes.
fn misused(known: &str, word: &OsStr) -> NotAsked {
    let line = HELP.lines().map(|line| line.trim_start_matches("usage:").trim_start());
    let line = line.filter(|line| line.starts_with("sulyterom ")).find(|line| line.split(' ').nth(1) == Some(known));
    NotAsked(match line.and_then(|line| line.split("    ").next()) {
        Some(line) => format!("usage: {}", line.trim_end()),
        None if SCRIPT_WORDS.contains(&known) => format!("{known} is a word of ./sulyterom in the repository"),
        None => format!("there is no word '{}': 'sulyterom --help' has the words", Path::new(word).display()),
    })
}

impl Question<'_> {
    pub fn asked(self) -> Result<Answer, NotAsked> {
        match self {
            Self::Help => Ok(Answer::new(Status::Yes, HELP)),
            Self::Version => Ok(Answer::new(Status::Yes, concat!("sulyterom ", env!("CARGO_PKG_VERSION"), "\n"))),
            Self::List(storage, reader, file) => questions::list(storage, reader, file),
            Self::Rows(file) => questions::rows(file),
            Self::References(file) => questions::references(file),
            Self::Depends(file, i, j) => questions::depends(file, i, j),
            Self::Dependents(file, j) => questions::dependents(file, j),
            Self::Binder(file, row) => questions::binder(file, row),
            Self::Same(one, other) => questions::same(one, other),
            Self::Tokens(file) => questions::tokens(file),
            Self::Head(files) => questions::head(&files),
            Self::Size(file) => questions::size(file),
            Self::Core(file) => questions::core(file),
            Self::ReadCore(layout, file) => questions::read_core(layout, file),
        }
    }
}

#[cfg(test)]
mod tests {
    use super::*;

    fn options(words: &[&str]) -> Option<(Storage, Reader)> {
        list_options(&words.iter().map(OsStr::new).collect::<Vec<_>>())
    }

    #[test]
    fn options_of_list_in_any_order() {
        assert_eq!(options(&[]), Some((Storage::Document01, Reader::Frames)));
        assert_eq!(options(&["--large"]), Some((Storage::Large, Reader::Frames)));
        assert_eq!(options(&["--plain"]), Some((Storage::Document01, Reader::Plain)));
        assert_eq!(options(&["--large", "--plain"]), Some((Storage::Large, Reader::Plain)));
        assert_eq!(options(&["--plain", "--large"]), Some((Storage::Large, Reader::Plain)));
    }

    #[test]
    fn no_option_twice_and_no_other() {
        for words in [&["--plain", "--plain"][..], &["--large", "--plain", "--large"], &["--frames"], &["file"]] {
            assert_eq!(options(words), None, "{words:?}");
        }
    }
}
