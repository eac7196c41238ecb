//! The questions, each answered by the library.
use crate::answer::{Answer, NotAsked, Status};
use crate::columns;
use crate::sentence;
use crate::source::Source;
use crate::text_sentence;
use std::ffi::OsStr;
use std::fmt::Write;
use std::os::unix::ffi::OsStrExt;
use std::path::Path;
use sulyterom::{
    Binding, Class, Comparison, LONGEST_SOURCE, Loaded, Loader, Reader, Reference, Refusal, Tables, Target, TokenKind,
};

/// "It lends 1,024 rows to each row table, 256 declarations and a work area of 16,384 words."
pub const ROWS: usize = 1_024;
pub const DECLARATIONS: usize = 256;

/// Bytes of the longest core text that this program holds. With the tables for it that is some 300 MB.
pub const LONGEST_HELD: usize = 16 << 20;

/// The tables that are lent.
#[derive(Clone, Copy, Debug, Eq, PartialEq)]
pub enum Storage {
    /// Those of document 01's listing.
    Document01,
    /// Enough for every source.
    Large,
}

impl Storage {
    pub fn tables(self, bytes: usize) -> Tables {
        match self {
            Self::Document01 => Tables::with_sizes(ROWS, DECLARATIONS),
            Self::Large => Tables::for_bytes(bytes),
        }
    }
}

/// A declaration as the command line gives it.
#[derive(Clone, Copy)]
pub enum Declaration<'a> {
    Place(usize),
    Name(&'a str),
}

/// No source has so many declarations, nor so many rows.
const NO_PLACE: usize = usize::MAX;

/// The number that a word of digits says. What is over all numbers is no place and no row either.
fn number(digits: &str) -> Option<usize> {
    let known = !digits.is_empty() && digits.bytes().all(|byte| byte.is_ascii_digit());
    known.then(|| digits.parse().unwrap_or(NO_PLACE))
}

/// A row as the command line gives it.
pub fn row(word: &OsStr) -> Result<usize, NotAsked> {
    let row = word.to_str().and_then(number);
    row.ok_or_else(|| NotAsked(format!("{} is not the number of a row", Path::new(word).display())))
}

impl<'a> Declaration<'a> {
    /// Digits are a place, other identifiers a name.
    pub fn named(word: &'a OsStr) -> Result<Self, NotAsked> {
        let text = word.to_str().unwrap_or("");
        let letters = text.bytes().all(|byte| byte.is_ascii_alphanumeric() || byte == b'_');
        if let Some(place) = number(text) {
            Ok(Self::Place(place))
        } else if letters && text.starts_with(|first: char| !first.is_ascii_digit()) {
            Ok(Self::Name(text))
        } else {
            Err(NotAsked(format!("{} is neither the place nor the name of a declaration", Path::new(word).display())))
        }
    }

    fn place(self, source: &Source, loader: &mut Loader) -> Result<usize, Refusal> {
        match self {
            Self::Place(place) => Ok(place),
            Self::Name(name) => Ok(loader.load(&source.bytes)?.place_of(name.as_bytes()).unwrap_or(NO_PLACE)),
        }
    }
}

/// 'refused C' or 'refused C at P', as document 01's listing has it.
fn refusal_line(refusal: Refusal) -> String {
    let class = refusal.class.number();
    refusal.offset.map_or_else(|| format!("refused {class}\n"), |at| format!("refused {class} at {at}\n"))
}

fn refused(source: &Source, refusal: Refusal, storage: Storage) -> Answer {
    Answer::refused(refusal_line(refusal), sentence::of(source, refusal, storage))
}

pub fn list(storage: Storage, reader: Reader, file: &OsStr) -> Result<Answer, NotAsked> {
    let source = Source::read(file)?;
    let listing = match storage {
        Storage::Document01 => sulyterom::list_by(&source.bytes, &mut storage.tables(source.bytes.len()), reader),
        Storage::Large => Loader::with_reader(reader).list(&source.bytes),
    };
    Ok(match listing.refusal {
        None => Answer::new(Status::Yes, listing.text),
        Some(refusal) => Answer::refused(listing.text, sentence::of(&source, refusal, storage)),
    })
}

/// Loads a source with enough storage, and prints the lines that are told of it.
fn told(file: &OsStr, lines: impl FnOnce(&Source, Loaded<'_>) -> String) -> Result<Answer, NotAsked> {
    let source = Source::read(file)?;
    Ok(match Loader::new().load(&source.bytes) {
        Ok(loaded) => Answer::new(Status::Yes, lines(&source, loaded)),
        Err(refusal) => refused(&source, refusal, Storage::Large),
    })
}

pub fn rows(file: &OsStr) -> Result<Answer, NotAsked> {
    told(file, |source, loaded| {
        let mut text = String::new();
        for (number, (offset, row)) in loaded.offsets().zip(loaded.rows()).enumerate() {
            let _ = writeln!(text, "{} {number} {row}", source.position(offset));
        }
        text
    })
}

pub fn references(file: &OsStr) -> Result<Answer, NotAsked> {
    told(file, |source, loaded| {
        let mut asked = Loader::new();
        let mut line = |reference| reference_line(source, loaded, reference, binding(source, reference, &mut asked));
        columns::aligned(&loaded.references().map(&mut line).collect::<Vec<_>>())
    })
}

/// What binds a reference of a loaded source. Loading tells a declaration's place; a form's row is asked for.
fn binding(source: &Source, reference: Reference<'_>, asked: &mut Loader) -> Binding {
    if let Target::Global { place } = reference.target {
        return Binding::Global { place };
    }
    match asked.binder(&source.bytes, reference.row) {
        Ok(bound) => bound.binding,
        Err(refusal) => unreachable!("the library's promise rules out a reference without a binder: {refusal}"),
    }
}

/// Where a reference's name stands, the name, what loading made of it, and what binds it: word and place of the form, or
/// name and place of the declaration.
fn reference_line(source: &Source, loaded: Loaded<'_>, reference: Reference<'_>, binding: Binding) -> [String; 6] {
    let (word, number, binder, at) = match binding {
        Binding::Local { count, row } => {
            let (form, at) = loaded.row(row).zip(loaded.offset(row)).expect("a binder's row is a row");
            ("var", count, form.word(), at)
        }
        Binding::Global { place } => {
            let name = loaded.declaration(place).expect("a global's place is a declaration's").name;
            ("global", place, name.as_str(), name.start)
        }
    };
    let position = |offset| source.position(offset).to_string();
    let name = reference.name;
    [position(name.start), name.to_string(), word.to_string(), number.to_string(), binder.to_string(), position(at)]
}

pub fn binder(file: &OsStr, row: usize) -> Result<Answer, NotAsked> {
    let source = Source::read(file)?;
    Ok(match Loader::new().binder(&source.bytes, row).map(|bound| bound.binding) {
        Ok(Binding::Local { count, row }) => Answer::new(Status::Yes, format!("var {count} row {row}\n")),
        Ok(Binding::Global { place }) => Answer::new(Status::Yes, format!("global {place}\n")),
        Err(refusal) if refusal.class == Class::NoDeclaration => {
            Answer::refused(refusal_line(refusal), sentence::no_reference(&source, row))
        }
        Err(refusal) => refused(&source, refusal, Storage::Large),
    })
}

pub fn depends(file: &OsStr, i: Declaration<'_>, j: Declaration<'_>) -> Result<Answer, NotAsked> {
    let source = Source::read(file)?;
    let mut loader = Loader::new();
    let places = i.place(&source, &mut loader).and_then(|i| Ok((i, j.place(&source, &mut loader)?)));
    let shown = places.and_then(|(i, j)| Ok(loader.depends(&source.bytes, i, j)?.row));
    Ok(match shown {
        Ok(Some(row)) => Answer::new(Status::Yes, format!("yes {row}\n")),
        Ok(None) => Answer::new(Status::No, "no\n"),
        Err(refusal) => refused_of(&source, refusal, &[i, j]),
    })
}

/// An empty list is an answer like others.
pub fn dependents(file: &OsStr, j: Declaration<'_>) -> Result<Answer, NotAsked> {
    let source = Source::read(file)?;
    let mut loader = Loader::new();
    let places = j.place(&source, &mut loader).and_then(|j| loader.dependents(&source.bytes, j));
    Ok(match places.and_then(|places| Ok(place_lines(&places, loader.load(&source.bytes)?))) {
        Ok(text) => Answer::new(Status::Yes, text),
        Err(refusal) => refused_of(&source, refusal, &[j]),
    })
}

/// A line for each place: itself, and the name of the declaration there.
fn place_lines(places: &[usize], loaded: Loaded<'_>) -> String {
    let mut text = String::new();
    for place in places {
        let name = loaded.declaration(*place).expect("a dependent's place is a declaration's").name;
        let _ = writeln!(text, "{place} {name}");
    }
    text
}

/// A refusal of a question about declarations: with 12, one of them is none.
fn refused_of(source: &Source, refusal: Refusal, asked: &[Declaration<'_>]) -> Answer {
    match refusal.class {
        Class::NoDeclaration => Answer::refused(refusal_line(refusal), sentence::no_declaration(source, asked)),
        _ => refused(source, refusal, Storage::Large),
    }
}

pub fn same(one: &OsStr, other: &OsStr) -> Result<Answer, NotAsked> {
    if one == "-" && other == "-" {
        return Err(NotAsked(String::from("one of the two files may be -, not both")));
    }
    let (first, second) = (Source::read(one)?, Source::read(other)?);
    let refused = |which: &str, source: &Source, refusal: Refusal| {
        let line = format!("{which} {}", refusal_line(refusal));
        Answer::refused(line, sentence::of(source, refusal, Storage::Large))
    };
    Ok(match Loader::new().same(&first.bytes, &second.bytes) {
        Comparison::Same => Answer::new(Status::Yes, "same\n"),
        Comparison::Different { declaration } => {
            Answer::new(Status::No, format!("different at declaration {declaration}\n"))
        }
        Comparison::FirstRefused(refusal) => refused("first", &first, refusal),
        Comparison::SecondRefused(refusal) => refused("second", &second, refusal),
    })
}

/// The module's name in a file.
fn module_name(file: &OsStr) -> Result<Answer, NotAsked> {
    let source = Source::read_head(file)?;
    Ok(match sulyterom::head(&source.bytes) {
        Ok(name) => Answer::new(Status::Yes, format!("{name}\n")),
        Err(refusal) if refusal.class == Class::LongSource => {
            Answer::refused(refusal_line(refusal), sentence::no_head(&source))
        }
        Err(refusal) => refused(&source, refusal, Storage::Large),
    })
}

/// A line for each file, with the file in front where there are several. One that cannot be read keeps no other from being
/// told.
pub fn head(files: &[&OsStr]) -> Result<Answer, NotAsked> {
    if let [file] = files {
        return module_name(file);
    }
    if files.iter().filter(|file| **file == "-").count() > 1 {
        return Err(NotAsked(String::from("one of the files may be -, not more")));
    }
    let mut all = Answer::new(Status::Yes, "");
    for file in files {
        let front = [file.as_bytes(), b": "].concat();
        match module_name(file) {
            Ok(answer) => all.add(&front, answer),
            Err(reason) => all.add(&front, Answer::not_asked(&reason)),
        }
    }
    Ok(all)
}

/// What a source needs, and the words of each table that a station lends it.
pub fn size(file: &OsStr) -> Result<Answer, NotAsked> {
    let source = Source::read(file)?;
    Ok(match Loader::new().storage(&source.bytes) {
        Ok(needs) => {
            let [surface, core, declarations, work] = needs.words();
            let lines = [
                ("rows", needs.rows),
                ("declarations", needs.declarations),
                ("frames", needs.frames),
                ("surface words", surface),
                ("core words", core),
                ("declaration words", declarations),
                ("work words", work),
            ];
            Answer::new(Status::Yes, lines.map(|(what, count)| format!("{what} {count}\n")).concat())
        }
        Err(refusal) => refused(&source, refusal, Storage::Large),
    })
}

pub fn core(file: &OsStr) -> Result<Answer, NotAsked> {
    let source = Source::read(file)?;
    Ok(match Loader::new().print(&source.bytes) {
        Ok(text) => Answer::new(Status::Yes, text),
        Err(refusal) => refused(&source, refusal, Storage::Large),
    })
}

/// Which core texts are taken.
#[derive(Clone, Copy, Debug, Eq, PartialEq)]
pub enum Layout {
    /// Those in any layout.
    Any,
    /// Those that are their own print.
    Canonical,
}

pub fn read_core(layout: Layout, file: &OsStr) -> Result<Answer, NotAsked> {
    let text = Source::read_over(file, LONGEST_HELD)?;
    if text.bytes.len() > LONGEST_HELD {
        return Ok(Answer::refused("", text_sentence::too_long(&text)));
    }
    let mut loader = Loader::new();
    let read = match layout {
        Layout::Any => loader.read_core(&text.bytes),
        Layout::Canonical => loader.read_canonical(&text.bytes),
    };
    Ok(match read {
        Ok(read) => Answer::new(Status::Yes, read.to_string()),
        Err(refusal) => Answer::refused(refusal_line(refusal), text_sentence::of(&text, refusal)),
    })
}

pub fn tokens(file: &OsStr) -> Result<Answer, NotAsked> {
    let source = Source::read(file)?;
    if let Some(refusal) = no_text(&source.bytes) {
        return Ok(refused(&source, refusal, Storage::Large));
    }
    let mut text = Vec::new();
    for token in sulyterom::tokens(&source.bytes) {
        match token {
            Ok(token) => {
                text.extend(format!("{} {} ", token.start, token.end).bytes());
                let end = token.kind == TokenKind::End;
                text.extend(if end { b"end" } else { &source.bytes[token.start..token.end] });
                text.push(b'\n');
            }
            Err(refusal) => {
                text.extend(refusal_line(refusal).bytes());
                return Ok(Answer::refused(text, sentence::of(&source, refusal, Storage::Large)));
            }
        }
    }
    Ok(Answer::new(Status::Yes, text))
}

/// What is refused before any token is read: 6, not UTF-8, a leading mark.
fn no_text(source: &[u8]) -> Option<Refusal> {
    let malformed = |at| Refusal { class: Class::Malformed, offset: Some(at) };
    if source.len() > LONGEST_SOURCE {
        return Some(Refusal { class: Class::LongSource, offset: None });
    }
    match std::str::from_utf8(source) {
        Err(error) => Some(malformed(error.valid_up_to())),
        Ok(text) => text.starts_with('\u{feff}').then(|| malformed(0)),
    }
}
