//! Tokens of core text, byte by byte.
use crate::core_text::tokens::{Kind, Token};
use common::fault::is;

/// The first token at or behind an offset, or the offset at which the text is refused.
pub fn next_token(text: &[u8], at: usize) -> Result<Token, usize> {
    let start = skip_layout(text, at);
    let one = |kind| Ok(Token { kind, start, end: start + 1 });
    match text.get(start) {
        None => Ok(Token { kind: Kind::End, start, end: start }),
        Some(b'(') => one(Kind::LParen),
        Some(b')') => one(Kind::RParen),
        Some(b'"') => string(text, start),
        Some(byte) if is_atom(*byte) => atom(text, start),
        Some(_) => Err(start),
    }
}

fn skip_layout(text: &[u8], mut at: usize) -> usize {
    while let Some(&byte) = text.get(at) {
        if byte == b';' && is("comment-taken") {
            at += text[at..].iter().position(|byte| *byte == b'\n').unwrap_or(text.len() - at);
        } else if is_layout(byte) {
            at += 1;
        } else {
            break;
        }
    }
    at
}

fn is_layout(byte: u8) -> bool {
    b" \t\n\r".contains(&byte) || is("core-bytes-11-12-layout") && [11, 12].contains(&byte)
}

fn is_atom(byte: u8) -> bool {
    let high = if is("byte-127-in-atoms") { 0x7f } else { 0x7e };
    (0x21..=high).contains(&byte) && !b"()\"".contains(&byte)
}

fn atom(text: &[u8], start: usize) -> Result<Token, usize> {
    let mut at = start;
    while let Some(&byte) = text.get(at) {
        let over = byte == b'"' && is("atom-goes-over-quote");
        let ends = b"()\"".contains(&byte) && !over || is_layout(byte);
        if ends || byte == b';' && at > start && is("semicolon-ends-an-atom") {
            break;
        }
        if !is_atom(byte) && !over {
            return Err(if is("core-refused-at-atom-start") { start } else { at });
        }
        at += 1;
    }
    Ok(Token { kind: Kind::Atom, start, end: at })
}

fn string(text: &[u8], start: usize) -> Result<Token, usize> {
    let mut at = start + 1;
    while let Some(&byte) = text.get(at) {
        let next = text.get(at + 1).copied();
        match byte {
            b'"' => return closed(text, start, at + 1),
            b'\\' => {
                let known = [Some(b'"'), Some(b'\\')].contains(&next) || next.is_some() && is("any-escape-taken");
                if !known {
                    return Err(at + usize::from(is("escape-refused-behind-the-backslash")));
                }
                at += 2;
            }
            _ if is_forbidden(byte, next) => return Err(if is("forbidden-at-the-quote") { start } else { at }),
            _ => at += 1,
        }
    }
    Err(if is("unclosed-string-at-the-end") { text.len() } else { start })
}

/// A string that ends before `end`.
fn closed(text: &[u8], start: usize, end: usize) -> Result<Token, usize> {
    let empty = end == start + 2 && !is("empty-string-taken");
    let touches = text.get(end).is_some_and(|byte| !is_layout(*byte) && *byte != b')');
    if empty || touches && is("string-needs-layout") {
        return Err(start);
    }
    Ok(Token { kind: Kind::String, start, end })
}

/// 00 to 1F, 7F, and U+0080 to U+009F, of which the second byte is 80 to 9F.
fn is_forbidden(byte: u8, next: Option<u8>) -> bool {
    match byte {
        0..=0x1f => !is("control-bytes-taken"),
        0x7f => !is("byte-127-in-strings"),
        0xc2 => match next {
            Some(0x80..=0x9f) => !is("later-controls-taken"),
            Some(0xa0) => is("no-break-space-refused"),
            _ => false,
        },
        0xf0..=0xf4 => is("four-bytes-refused"),
        _ => false,
    }
}
