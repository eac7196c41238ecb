//! A refused core text as a sentence: where, why, and what to do about it. Tokens are told apart here once more, for the
//! sentence alone: the library has refused the text.
use crate::questions::LONGEST_HELD;
use crate::sentence::{self, Told, shown};
use crate::source::Source;
use std::collections::HashMap;
use sulyterom::{Class, Loader, Refusal};

/// Why a core text is refused.
pub fn of(text: &Source, refusal: Refusal) -> String {
    let told = match (refusal.class, refusal.offset) {
        (Class::CoreText, Some(at)) => malformed(text, at),
        (Class::CoreText, None) => {
            (None, String::from("the text is not its own print, byte for byte; without --canonical it is read"))
        }
        (Class::Version, _) => version(&text.bytes),
        (Class::Frames, _) => (met(&text.bytes, Class::Frames), sentence::too_deep()),
        (class, _) => (None, class.to_string()),
    };
    sentence::placed(text, told)
}

/// Of a text that is not read at all.
pub fn too_long(text: &Source) -> String {
    let why = format!("the text has over {LONGEST_HELD} bytes, more than this program holds");
    sentence::placed(text, (None, format!("{why}; a program over the library can read it")))
}

#[derive(Clone, Copy, Debug, Eq, PartialEq)]
enum Kind {
    Parenthesis,
    Atom,
    String {
        closed: bool,
    },
    /// A byte that can be no part of a token.
    Other,
}

/// A token, or a byte that is none.
#[derive(Clone, Copy, Debug, Eq, PartialEq)]
struct Piece {
    kind: Kind,
    start: usize,
    end: usize,
}

/// The pieces of a text, layout left out.
fn pieces(text: &[u8]) -> impl Iterator<Item = Piece> {
    let mut at = 0;
    std::iter::from_fn(move || {
        let start = at + text[at..].iter().position(|byte| !b" \t\n\r".contains(byte))?;
        let rest = &text[start..];
        let (kind, length) = match rest[0] {
            b'(' | b')' => (Kind::Parenthesis, 1),
            b'"' => string(rest),
            byte if is_atom(byte) => (Kind::Atom, rest.iter().position(|byte| !is_atom(*byte)).unwrap_or(rest.len())),
            _ => (Kind::Other, 1),
        };
        at = start + length;
        Some(Piece { kind, start, end: at })
    })
}

fn is_atom(byte: u8) -> bool {
    byte.is_ascii_graphic() && !b"()\"".contains(&byte)
}

/// A string with its quotes; one that is not closed is all there is.
fn string(rest: &[u8]) -> (Kind, usize) {
    let mut at = 1;
    while at < rest.len() {
        match rest[at] {
            b'"' => return (Kind::String { closed: true }, at + 1),
            b'\\' => at += 2,
            _ => at += 1,
        }
    }
    (Kind::String { closed: false }, rest.len())
}

fn malformed(text: &Source, at: usize) -> Told {
    let bytes = &text.bytes;
    if let Some(why) = sentence::encoding(bytes, at) {
        return (Some(at), why);
    }
    // a parenthesis fits at the beginning, so that nothing else is refused there
    if at == 0 && pieces(bytes).next().is_some_and(|piece| bytes[piece.start] == b'(') {
        return duplicate(text);
    }
    let piece = pieces(bytes).take_while(|piece| piece.start <= at).last().filter(|piece| at < piece.end);
    (Some(at), piece.map_or_else(|| String::from(EARLY), |piece| misplaced(&bytes[piece.start..piece.end], piece, at)))
}

const EARLY: &str = "the text ends too early; see that every parenthesis is closed";

/// A piece with these bytes that is refused at an offset.
fn misplaced(bytes: &[u8], Piece { kind, start, .. }: Piece, at: usize) -> String {
    let byte = bytes[at - start];
    match kind {
        Kind::String { .. } if start < at && byte == b'\\' => {
            String::from("in a name a backslash stands before a quote or a backslash only; take it away, or write two")
        }
        Kind::String { .. } if start < at => String::from("a control character cannot stand in a name; take it away"),
        Kind::String { closed: false } => String::from("the name that begins here is not closed; see where it ends"),
        Kind::String { .. } if bytes == b"\"\"" => String::from("a name has at least one character; give it a name"),
        Kind::Atom if byte == b';' => String::from("there are no comments in a core text; take it away"),
        Kind::Other if byte.is_ascii() => format!("{} can stand nowhere; take it away", sentence::byte(byte)),
        Kind::Other => format!("{} can stand in names only; take it away", sentence::byte(byte)),
        _ => format!("'{}' does not fit here; docs/REFERENCE.md has the forms", shown(bytes)),
    }
}

/// The first declaration whose name an earlier one has. The first string is the theory's name, the others are declarations'.
fn duplicate(text: &Source) -> Told {
    let strings = pieces(&text.bytes).filter(|piece| matches!(piece.kind, Kind::String { .. })).skip(1);
    let mut seen: HashMap<&[u8], usize> = HashMap::new();
    for Piece { start, end, .. } in strings {
        let name = &text.bytes[start + 1..end - 1];
        let first = *seen.entry(name).or_insert(start);
        if first != start {
            return sentence::declared_before(text, name, first, start);
        }
    }
    (None, Class::CoreText.to_string())
}

/// What stands at some of the first twelve tokens, and must.
const VERSION: [(usize, &str); 5] = [(4, "0"), (5, "1"), (9, "\"mltt-core\""), (10, "0"), (11, "1")];

fn version(text: &[u8]) -> Told {
    let head: Vec<Piece> = pieces(text).take(12).collect();
    let given = |at: usize| head.get(at).map_or(&b""[..], |piece| &text[piece.start..piece.end]);
    let other = VERSION.iter().find(|(at, known)| given(*at) != known.as_bytes());
    let [format, minor, theory, first, second] = VERSION.map(|(at, _)| shown(given(at)));
    let why = format!("the text has format {format} {minor} and theory {theory} {first} {second}");
    let known = "format 0 1 and theory \"mltt-core\" 0 1 alone are known";
    let at = other.and_then(|(at, _)| head.get(*at)).map(|piece| piece.start);
    (at, format!("{why}, and {known}; see what it was written for"))
}

/// Where reading meets a refusal of a class: up to there, and not up to an earlier token, the text is refused so.
fn met(text: &[u8], class: Class) -> Option<usize> {
    let all: Vec<Piece> = pieces(text).collect();
    let mut loader = Loader::new();
    let first = sentence::partition(all.len(), |last| {
        loader.read_core(&text[..all[last].end]).is_err_and(|refusal| refusal.class == class)
    });
    all.get(first).map(|piece| piece.start)
}
