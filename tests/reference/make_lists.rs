//! Writes the four lists of tests/lists into the folder that is named on the command line.
mod sources {
    pub mod bounds;
    pub mod card;
    pub mod loading;
    pub mod short;
    pub mod tokens;
    pub mod utf8;
    pub mod words;
}

use answers::{answer, token_line, utf8_line, word_line};
use common::lists::Draft;
use common::prng::Prng;
use std::fs;

const FORMAT: [&str; 5] = [
    "A line is SOURCE, a tab, ANSWER. Lines that start with # are comments.",
    "SOURCE: bytes 32 to 126 other than \\ stand for themselves; \\\\ \\t \\n \\r \\xHH; \\{N:TEXT} is N times TEXT.",
    "(A # at the start of a line and a } inside TEXT are written \\x23 and \\x7d.) ANSWER is escaped in the same way.",
    "Made from the unchanged Rust of docs/src by tests/reference/make (make_lists.rs, random numbers from a fixed seed);",
    "tests/run makes it again and compares.",
];

type Fill = fn(&mut Draft, &mut Prng);

fn main() {
    let folder = std::env::args().nth(1).expect("the folder that the lists go to");
    write(
        &folder,
        "answers",
        answer,
        sources::loading::fill,
        &[
            "Sources with the Rust's answer to loading (parse_surface, then elaborate_surface); of one whose head is 0 2 its answer",
            "to the 0 1 spelling (tests/reference/editions.rs), since the Rust knows 0 1 alone.",
            "ANSWER: refused C, or refused C at P, with document 01's class numbers; else document 01's listing,",
            "its lines joined by |.",
        ],
    );
    write(
        &folder,
        "tokens",
        token_line,
        sources::tokens::fill,
        &[
            "UTF-8 sources with the tokens of the Rust's Lexer.",
            "ANSWER: (START, )START, aSTART-END, and last eOFFSET, the end, or !OFFSET, a refused byte.",
        ],
    );
    write(
        &folder,
        "words",
        word_line,
        sources::words::fill,
        &["Atoms with the Rust's is_reserved, is_identifier and the test inside parse_natural."],
    );
    write(
        &folder,
        "utf8",
        utf8_line,
        sources::utf8::fill,
        &[
            "Byte strings with the length of the longest valid beginning (valid_up_to of std::str::from_utf8, or the length)",
            "and whether EF BB BF leads.",
        ],
    );
}

fn write(folder: &str, name: &str, answer: fn(&[u8]) -> String, fill: Fill, about: &[&str]) {
    let mut draft = Draft::new(&[about, &FORMAT].concat(), answer);
    fill(&mut draft, &mut Prng::new(1));
    let path = format!("{folder}/{name}.txt");
    fs::write(&path, draft.text()).unwrap_or_else(|error| panic!("{path}: {error}"));
    println!("{path}: {} lines, {} bytes", draft.count(), draft.text().len());
}
