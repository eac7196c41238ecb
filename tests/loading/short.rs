//! All short continuations of some beginnings: by tokens as far as reading goes on, and by bytes.
use common::vocabulary::{HEAD, HEAD_0_2};

/// The beginnings and the words behind them.
pub struct Tokens<'a> {
    pub starts: Vec<String>,
    pub words: &'a [&'a str],
}

/// The beginnings and the bytes behind them.
pub struct Bytes<'a> {
    pub starts: Vec<String>,
    pub bytes: &'a [u8],
}

/// Of the surface language.
pub fn tokens() -> Tokens<'static> {
    const WORDS: [&str; 18] = [
        "(",
        ")",
        "surface",
        "module",
        "postulate",
        "opaque",
        "pi",
        "arrow",
        "lam",
        "app",
        "ref",
        "universe",
        "nat",
        "x",
        "y",
        "0",
        "1",
        "2",
    ];
    let starts = vec![
        String::new(),
        HEAD.to_string(),
        format!("{HEAD}(postulate x"),
        format!("{HEAD}(postulate x nat)(opaque y (pi x nat (ref x))"),
        String::from("(surface 0 2)(module"),
        format!("{HEAD_0_2}(postulate x nat)(opaque y (arrow"),
    ];
    Tokens { starts, words: &WORDS }
}

/// Of the surface language.
pub fn bytes() -> Bytes<'static> {
    const BYTES: &[u8] = b"() ;\n\r\x0ba0-_]\x00\xc3\xa9\xff";
    const STARTS: [&str; 5] = ["", ";", HEAD, "(surface 0 1)(module m", "(surface 0 1)(module m)(postulate a nat"];
    Bytes { starts: STARTS.map(str::to_string).to_vec(), bytes: BYTES }
}

/// Sources in the order of their number of tokens, as many whole numbers as `budget` sources allow. `visit` says
/// whether reading gets to the end of a source; if not, what follows plays no part and is left out.
/// Gives the greatest number of tokens behind a beginning.
pub fn by_tokens(of: Tokens, budget: usize, mut visit: impl FnMut(&[u8]) -> bool) -> usize {
    let Tokens { starts: mut open, words } = of;
    let (mut length, mut visited) = (0, 0);
    loop {
        visited += open.len() * words.len();
        if visited > budget || open.is_empty() {
            return length;
        }
        length += 1;
        let longer = open.iter().flat_map(|start| words.iter().map(|word| continued(start, word)));
        open = longer.filter(|source| visit(source.as_bytes())).collect();
    }
}

/// A space only where two atoms would touch.
fn continued(start: &str, word: &str) -> String {
    let touch = start.ends_with(|last: char| last.is_ascii_alphanumeric());
    let space = if touch && !["(", ")"].contains(&word) { " " } else { "" };
    format!("{start}{space}{word}")
}

/// Every string of up to so many of the bytes, behind each beginning.
pub fn by_bytes(of: Bytes, longest: usize, mut visit: impl FnMut(&[u8])) {
    let mut sources: Vec<Vec<u8>> = of.starts.into_iter().map(String::into_bytes).collect();
    for _ in 0..longest {
        let longer = |source: Vec<u8>| of.bytes.iter().map(move |byte| [&source[..], &[*byte]].concat());
        sources = sources.into_iter().flat_map(longer).collect();
        sources.iter().for_each(|source| visit(source));
    }
}
