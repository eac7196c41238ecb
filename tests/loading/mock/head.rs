//! The module's name from the head of a source, token by token.
use crate::faults;
use common::fault::{fault, is};
use common::refusal::Refusal;
use common::tokens::{Kind, Token};
use common::vocabulary::{ARROW, RESERVED};

const LONGEST: usize = 65_535;
const MARK: &[u8] = b"\xef\xbb\xbf";

/// The name's start and length.
pub fn answer(source: &[u8]) -> Result<Vec<usize>, Refusal> {
    let at = if is("head-mark-skipped") && source.starts_with(MARK) { MARK.len() } else { 0 };
    let own = head(source, at);
    if is("head-of-the-whole-only") || is("head-six-first") && source.len() > LONGEST {
        whole(source)?;
    }
    if is("head-utf8-of-all-first") {
        utf8(source)?;
    }
    if is("head-own-refusal-first") {
        own?;
    }
    if let Ok(Head { name, end }) = own
        && by_itself(source, end)
    {
        return Ok(told(name));
    }
    whole(source)?;
    // UTF-8 and short enough, so that only the head itself is left to refuse
    own.map(|head| told(head.name))
}

#[derive(Clone, Copy)]
struct Head {
    name: Token,
    end: usize,
}

fn told(name: Token) -> Vec<usize> {
    let length = name.end - name.start;
    match fault() {
        "head-length-one-off" => vec![name.start, length + 1],
        "head-tells-the-end" => vec![name.start, name.end],
        "head-start-of-the-word" => vec![name.start - 7, length],
        _ => vec![name.start, length],
    }
}

/// Whether the beginning that ends with the head would be accepted.
fn by_itself(source: &[u8], end: usize) -> bool {
    let longest = match fault() {
        "head-over-by-a-byte" => LONGEST + 1,
        "head-short-by-a-byte" => LONGEST - 1,
        _ => LONGEST,
    };
    let behind = || faults::next_token(source, end).kind;
    let clean = is("head-utf8-not-in-comments") || std::str::from_utf8(&source[..end]).is_ok();
    let ended = !is("head-looks-behind") || matches!(behind(), Kind::Eof | Kind::LParen);
    end <= longest && clean && ended
}

/// The refusal of the whole source before its head.
fn whole(source: &[u8]) -> Result<(), Refusal> {
    let six = if source.len() > LONGEST { Err(Refusal::nowhere(6)) } else { Ok(()) };
    if is("head-utf8-before-six") {
        utf8(source)?;
    }
    if !is("head-without-six") {
        six?;
    }
    if is("head-utf8-not-behind") { Ok(()) } else { utf8(source) }
}

fn utf8(source: &[u8]) -> Result<(), Refusal> {
    std::str::from_utf8(source).map(|_| ()).map_err(|error| Refusal::at(1, error.valid_up_to()))
}

fn head(source: &[u8], mut at: usize) -> Result<Head, Refusal> {
    let mut next = |wanted: Kind, word: Option<&str>| {
        let token = faults::next_token(source, at);
        let text = &source[token.start.min(source.len())..token.end.min(source.len())];
        let fits = token.kind == wanted && word.is_none_or(|word| word.as_bytes() == text);
        at = token.end;
        if fits { Ok(token) } else { Err(Refusal::at(1, token.start)) }
    };
    next(Kind::LParen, None)?;
    next(Kind::Atom, Some("surface"))?;
    let major = next(Kind::Atom, None)?;
    numeral(source, major)?;
    let minor = next(Kind::Atom, None)?;
    numeral(source, minor)?;
    next(Kind::RParen, None)?;
    let second = text(source, minor) == b"2" && !is("head-two-for-0-2");
    if text(source, major) != b"0" || text(source, minor) != b"1" && !second {
        return Err(Refusal::nowhere(2));
    }
    next(Kind::LParen, None)?;
    next(Kind::Atom, Some("module"))?;
    let name = next(Kind::Atom, None)?;
    let arrows = second && !is("head-arrow-taken") || is("head-arrow-reserved-in-0-1");
    identifier(source, name, arrows)?;
    let close = next(Kind::RParen, None)?;
    Ok(Head { name, end: close.end })
}

fn text(source: &[u8], token: Token) -> &[u8] {
    &source[token.start..token.end]
}

fn numeral(source: &[u8], token: Token) -> Result<(), Refusal> {
    let digits = text(source, token);
    let known = digits.iter().all(u8::is_ascii_digit) && (digits == b"0" || digits[0] != b'0');
    if known { Ok(()) } else { Err(Refusal::at(1, token.start)) }
}

/// `arrows`: whether `arrow` is reserved.
fn identifier(source: &[u8], token: Token, arrows: bool) -> Result<(), Refusal> {
    let name = text(source, token);
    let reserved = RESERVED.iter().any(|word| word.as_bytes() == name) && !is("head-reserved-taken");
    let letters = name.iter().all(|byte| byte.is_ascii_alphanumeric() || *byte == b'_');
    if reserved || arrows && name == ARROW.word.as_bytes() {
        Err(Refusal::at(3, token.start))
    } else if letters && !name[0].is_ascii_digit() {
        Ok(())
    } else {
        Err(Refusal::at(1, token.start))
    }
}
