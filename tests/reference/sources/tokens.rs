//! tokens.txt: UTF-8 sources with their tokens.
use common::damage::damaged_text;
use common::lists::Draft;
use common::modules::{Shape, generate};
use common::printing::{Layout, comment, print};
use common::prng::Prng;
use common::unicode::CHARACTERS;

const PIECES: [&str; 14] = ["(", ")", ";", "a", "Z", "0", "_", "-", " ", "\n", "\r", "]", "é", "\t"];

pub fn fill(draft: &mut Draft, prng: &mut Prng) {
    draft.source(b"");
    draft.sources(characters_in_places());
    draft.sources(pieces(1, prng, 14));
    draft.sources(pieces(2, prng, 600));
    draft.sources(pieces(3, prng, 500));
    draft.sources(pieces(8, prng, 320));
    draft.sources(pieces(20, prng, 120));
    draft.sources(printed(prng, 160));
    draft.sources(long());
}

/// Every character up to 127 and those of interest above, in five places.
fn characters_in_places() -> Vec<String> {
    let ascii = (0..128).map(|byte: u8| char::from(byte));
    let characters = ascii.chain(CHARACTERS);
    let places = |c: char| {
        [
            format!("{c}"),
            format!("a{c}b"),
            format!("ab {c}"),
            format!("({c})"),
            format!(";{c}\nx"),
            format!("x;{c}"),
            format!(" {c}(-"),
            format!("0{c}"),
        ]
    };
    characters.flat_map(places).collect()
}

/// So many sources of so many pieces.
fn pieces(length: usize, prng: &mut Prng, count: usize) -> Vec<String> {
    let source = |_| (0..length).map(|_| *prng.pick(&PIECES)).collect();
    (0..count).map(source).collect()
}

/// Small modules in any layout, beginnings of them, and damaged copies.
fn printed(prng: &mut Prng, count: usize) -> Vec<String> {
    let shape = Shape { declarations: 2, depth: 3, size: 4, ..Shape::doubtful() };
    let mut sources = Vec::new();
    for _ in 0..count {
        let module = generate(prng, &shape);
        let text = String::from_utf8(print(&module, Layout::Wild, prng)).expect("printed text is UTF-8");
        let end = (0..=prng.below(text.len())).rfind(|end| text.is_char_boundary(*end));
        sources.push(text[..end.unwrap_or(0)].to_string());
        sources.push(damaged_text(&text, prng));
        sources.push(String::from_utf8(comment(prng)).expect("a comment is UTF-8"));
        sources.push(text);
    }
    sources
}

fn long() -> Vec<String> {
    let run = |piece: &str, length: usize| piece.repeat(length);
    vec![
        run(" ", 65535),
        run("a", 65535),
        run("a", 65534) + "]",
        run("a", 65534) + ";",
        run(" ", 65534) + "(",
        String::from(";") + &run("x", 65534),
        String::from(";") + &run("é", 32767),
        String::from(";") + &run("\r", 3000) + "\nx",
        run(";\n", 3000) + ")",
        run(";\r", 3000) + ")",
        run("(", 150),
        run("()", 75),
        run("a ", 75),
        run("\t\n\r ", 1000) + "é",
        run("\u{10ffff}", 20),
        String::from(";") + &run("\u{10ffff}", 2000) + "\n\u{10ffff}",
    ]
}
