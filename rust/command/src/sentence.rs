//! A refusal as a sentence: where, why, and what to do about it. Places that a refusal does not carry are found by
//! asking the library about parts of the source.
use crate::questions::{DECLARATIONS, Declaration, ROWS, Storage};
use crate::source::Source;
use std::collections::HashMap;
use sulyterom::{Class, LONGEST_SOURCE, Loader, MOST_FRAMES, Refusal, Token, TokenKind, load, token, tokens};

/// Bytes of a token that a sentence shows at most.
const LONGEST_SHOWN: usize = 80;

/// Where something is, if it is anywhere, and what.
pub type Told = (Option<usize>, String);

/// Why a source is refused.
pub fn of(source: &Source, refusal: Refusal, storage: Storage) -> String {
    placed(source, why(source, refusal, storage))
}

/// `FILE:LINE:COLUMN: WHY; WHAT TO DO`, or without a place.
pub fn placed(source: &Source, (at, why): Told) -> String {
    match at {
        Some(at) => format!("{}:{}: {why}", source.name, source.position(at)),
        None => format!("{}: {why}", source.name),
    }
}

fn why(source: &Source, refusal: Refusal, storage: Storage) -> Told {
    let bytes = &source.bytes;
    let met = || met(bytes, refusal.class, storage).map(|token| token.start);
    match refusal.class {
        Class::Malformed => (refusal.offset, malformed(bytes, refusal.offset.unwrap_or(0))),
        Class::Version => version(bytes),
        Class::ReservedName => (refusal.offset, reserved(bytes, refusal.offset.unwrap_or(0))),
        Class::DuplicateName => duplicate(source),
        Class::UnknownName => unknown(bytes),
        Class::LongSource => {
            (None, format!("the source has over {LONGEST_SOURCE} bytes; divide it into modules of their own"))
        }
        Class::Frames => (met(), too_deep()),
        Class::SurfaceFull => {
            (met(), format!("the source has over {ROWS} terms; 'sulyterom list --large' lends room for more"))
        }
        Class::DeclarationsFull => {
            let why = format!("the source has over {DECLARATIONS} declarations");
            (met(), format!("{why}; 'sulyterom list --large' lends room for more"))
        }
        class => (None, class.to_string()),
    }
}

/// Why a file over the longest source has no module name: its head is not good, or does not end in time.
pub fn no_head(source: &Source) -> String {
    let why = format!("the file has over {LONGEST_SOURCE} bytes, and no head in them that is good by itself");
    placed(source, (None, format!("{why}; see its first two lines")))
}

/// A token as it is written, or the beginning of a long one.
fn text(source: &[u8], token: Token) -> String {
    shown(&source[token.start..token.end])
}

/// Bytes as they are written, or the beginning of many.
pub fn shown(bytes: &[u8]) -> String {
    let shown = String::from_utf8_lossy(&bytes[..bytes.len().min(LONGEST_SHOWN)]);
    if bytes.len() > LONGEST_SHOWN { format!("{shown}..") } else { shown.into_owned() }
}

pub fn too_deep() -> String {
    format!("over {MOST_FRAMES} forms are open here in one type or body; make an inner part a declaration of its own")
}

/// A name at a place, which stands at an earlier one too.
pub fn declared_before(source: &Source, name: &[u8], first: usize, at: usize) -> Told {
    let why = format!("'{}' is declared before, at {}", shown(name), source.position(first));
    (Some(at), format!("{why}; give one of the two another name"))
}

/// What is wrong with a file's encoding at an offset, if that is it.
pub fn encoding(bytes: &[u8], at: usize) -> Option<String> {
    if std::str::from_utf8(bytes).is_err_and(|error| error.valid_up_to() == at) {
        return Some(format!("byte {:02X} is no UTF-8 here; save the file as UTF-8", bytes[at]));
    }
    let marked = at == 0 && bytes.starts_with(b"\xef\xbb\xbf");
    marked.then(|| String::from("the file begins with a byte order mark; save it without"))
}

/// A byte, and the character that it is if that can be seen.
pub fn byte(byte: u8) -> String {
    let shown = if byte.is_ascii_graphic() { format!(" ('{}')", char::from(byte)) } else { String::new() };
    format!("byte {byte:02X}{shown}")
}

fn malformed(source: &[u8], at: usize) -> String {
    if let Some(why) = encoding(source, at) {
        return why;
    }
    match token(source, at) {
        Ok(Token { kind: TokenKind::End, .. }) => {
            String::from("the source ends too early; see that every parenthesis is closed")
        }
        Ok(token) if token.start == at => {
            let word = text(source, token);
            if is_form_of_0_2(source, token) {
                return format!("'{word}' is a form of edition 0 2 alone; begin the source with (surface 0 2)");
            }
            format!("'{word}' does not fit here; docs/REFERENCE.md has the forms")
        }
        _ => format!("{} can stand in comments only; take it away", byte(source[at])),
    }
}

/// Whether a token is the word `arrow` where a form's stands, in a source of edition 0 1.
fn is_form_of_0_2(source: &[u8], tag: Token) -> bool {
    let before: Vec<Token> = tokens(source).map_while(Result::ok).take_while(|token| token.start < tag.start).collect();
    let count = |kind: TokenKind| before.iter().filter(|token| token.kind == kind).count();
    // a declaration's parenthesis and its own
    let inside = count(TokenKind::LeftParenthesis) >= count(TokenKind::RightParenthesis) + 2;
    let opened = before.last().is_some_and(|token| token.kind == TokenKind::LeftParenthesis);
    let first = before.get(3).is_some_and(|minor| text(source, *minor) == "1");
    first && inside && opened && text(source, tag) == "arrow"
}

fn reserved(source: &[u8], at: usize) -> String {
    let word = token(source, at).map_or_else(|_| String::new(), |token| text(source, token));
    format!("'{word}' is a reserved word and no name; choose another")
}

/// The numerals are the third and fourth token of the head.
fn version(source: &[u8]) -> Told {
    let head: Vec<Token> = tokens(source).take(4).filter_map(Result::ok).collect();
    let [_, _, first, second] = head[..] else { return (None, Class::Version.to_string()) };
    let given = format!("{} {}", text(source, first), text(source, second));
    let why = format!("the source has version {given}, and 0 1 and 0 2 alone are known");
    (Some(first.start), format!("{why}; see what it was written for"))
}

/// The first declaration whose name an earlier one has.
fn duplicate(source: &Source) -> Told {
    let bytes = &source.bytes;
    let mut seen: HashMap<&[u8], usize> = HashMap::new();
    for Named { name, .. } in named(bytes, &["postulate", "transparent", "opaque"]) {
        let first = *seen.entry(&bytes[name.start..name.end]).or_insert(name.start);
        if first != name.start {
            return declared_before(source, &bytes[name.start..name.end], first, name.start);
        }
    }
    (None, Class::DuplicateName.to_string())
}

/// The first reference that cannot be resolved: with all references behind it put away the source is still refused for an
/// unknown name, and with it put away too it is not.
fn unknown(source: &[u8]) -> Told {
    let references = named(source, &["ref"]);
    let mut loader = Loader::new();
    let first = partition(references.len(), |last| {
        let mut changed = source.to_vec();
        references[last + 1..].iter().for_each(|reference| reference.put_away(&mut changed));
        loader.load(&changed).is_err_and(|refusal| refusal.class == Class::UnknownName)
    });
    let Some(Named { name, .. }) = references.get(first) else { return (None, Class::UnknownName.to_string()) };
    let why = format!("no binder around it and no earlier declaration is named '{}'", text(source, *name));
    (Some(name.start), format!("{why}; declare it before, or correct the name"))
}

/// A parenthesis, a word and the name behind it.
struct Named {
    open: usize,
    name: Token,
}

impl Named {
    /// Makes the form `(ref NAME)` a term without a name, with layout around it.
    fn put_away(&self, source: &mut [u8]) {
        let close = token(source, self.name.end).map_or(self.name.end, |token| token.end);
        source[self.open..close].fill(b' ');
        source[self.open + 1..self.open + 5].copy_from_slice(b"zero");
    }
}

/// The forms that begin with one of the words. The words are reserved, so that they stand nowhere else.
fn named(source: &[u8], words: &[&str]) -> Vec<Named> {
    let all: Vec<Token> = tokens(source).map_while(Result::ok).collect();
    let form = |three: &[Token]| {
        let opened = three[0].kind == TokenKind::LeftParenthesis;
        let word = &source[three[1].start..three[1].end];
        let known = words.iter().any(|known| known.as_bytes() == word);
        (opened && known).then_some(Named { open: three[0].start, name: three[2] })
    };
    all.windows(3).filter_map(form).collect()
}

/// The token at which reading meets a refusal of a class: up to it, and not up to an earlier one, the source is refused so.
fn met(source: &[u8], class: Class, storage: Storage) -> Option<Token> {
    let all: Vec<Token> = tokens(source).map_while(Result::ok).collect();
    let mut tables = storage.tables(source.len());
    let first = partition(all.len(), |last| {
        load(&source[..all[last].end], &mut tables).is_err_and(|refusal| refusal.class == class)
    });
    all.get(first).copied()
}

/// The first number under `count` for which the test holds, if it then holds for all above; else `count`.
pub fn partition(count: usize, mut holds: impl FnMut(usize) -> bool) -> usize {
    let (mut low, mut high) = (0, count);
    while low < high {
        let middle = low.midpoint(high);
        if holds(middle) { high = middle } else { low = middle + 1 }
    }
    low
}

/// What stands at a row that is no reference, if anything does.
pub fn no_reference(source: &Source, row: usize) -> String {
    let mut loader = Loader::new();
    let Ok(loaded) = loader.load(&source.bytes) else { return format!("{}: {}", source.name, Class::NoDeclaration) };
    let why = match loaded.row(row) {
        Some(term) => {
            let what_to_do = "'sulyterom rows' prints references as var and global";
            format!("row {row} is '{}' and no reference; {what_to_do}", term.word())
        }
        None => format!("there is no row {row}; its rows have the numbers from 0 to below {}", loaded.row_count()),
    };
    placed(source, (loaded.offset(row), why))
}

/// Which of those asked of is no declaration.
pub fn no_declaration(source: &Source, asked: &[Declaration<'_>]) -> String {
    let mut loader = Loader::new();
    let Ok(loaded) = loader.load(&source.bytes) else { return format!("{}: {}", source.name, Class::NoDeclaration) };
    let count = loaded.declaration_count();
    let missing = asked.iter().find_map(|declaration| match *declaration {
        Declaration::Place(place) if place >= count => Some(format!("there is no declaration at place {place}")),
        Declaration::Name(name) if loaded.place_of(name.as_bytes()).is_none() => {
            Some(format!("'{name}' is not declared"))
        }
        _ => None,
    });
    let why = missing.unwrap_or_else(|| Class::NoDeclaration.to_string());
    format!("{}: {why}; its declarations have the places from 0 to below {count}", source.name)
}
