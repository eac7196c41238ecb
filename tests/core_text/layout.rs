//! Core text from its tokens: in the print's own layout, close to it, and in others.
use common::prng::Prng;

#[derive(Clone, Copy, Debug, PartialEq)]
pub enum Layout {
    /// As it is printed: one space before everything but a closing parenthesis and what follows an opening one, and
    /// byte 10 last.
    Printed,
    /// As it is printed, but for one place.
    Nearly,
    /// One space where two atoms would touch, and nothing else.
    Tight,
    /// Any layout bytes.
    Wild,
}

impl Layout {
    pub const ALL: [Self; 4] = [Self::Printed, Self::Nearly, Self::Tight, Self::Wild];
}

pub fn join(tokens: &[String], layout: Layout, prng: &mut Prng) -> Vec<u8> {
    // the place that is not as printed, often behind the last token
    let other = match layout {
        Layout::Nearly if prng.chance(30) => tokens.len(),
        Layout::Nearly => prng.below(tokens.len()),
        _ => usize::MAX,
    };
    let mut text = Vec::new();
    for at in 0..=tokens.len() {
        let before = at.checked_sub(1).map(|before| tokens[before].as_str());
        let token = tokens.get(at).map(String::as_str);
        let must = [before, token].iter().all(|token| token.is_some_and(is_atom));
        match layout {
            Layout::Tight if must => text.push(b' '),
            Layout::Tight => {}
            Layout::Wild => text.extend(gap(must, prng)),
            Layout::Printed | Layout::Nearly => {
                let printed = printed_gap(before, token);
                if at == other { text.extend(another(printed, must, prng)) } else { text.extend(printed) }
            }
        }
        text.extend(token.unwrap_or_default().bytes());
    }
    text
}

/// A string needs no layout beside it.
fn is_atom(token: &str) -> bool {
    token != "(" && token != ")" && !token.starts_with('"')
}

/// What the print has between two tokens.
fn printed_gap(before: Option<&str>, token: Option<&str>) -> &'static [u8] {
    match (before, token) {
        (None, _) | (Some("("), _) | (_, Some(")")) => b"",
        (_, None) => b"\n",
        _ => b" ",
    }
}

/// Something else than what the print has there.
fn another(printed: &[u8], must: bool, prng: &mut Prng) -> Vec<u8> {
    const GAPS: [&[u8]; 9] = [b"", b" ", b"\n", b"\t", b"\r", b"  ", b"\r\n", b"\n\n", b" \n"];
    let others: Vec<&[u8]> = GAPS.into_iter().filter(|gap| *gap != printed && !(must && gap.is_empty())).collect();
    prng.pick(&others).to_vec()
}

/// Random layout, at least something where two atoms would touch.
fn gap(must: bool, prng: &mut Prng) -> Vec<u8> {
    let pieces = if prng.chance(60) { 0 } else { prng.between(1, 3) };
    (0..pieces.max(usize::from(must))).map(|_| *prng.pick(b" \t\n\r")).collect()
}
