//! The program that prints document 01's listing of its standard input, and the command around it, over the mock.
use crate::loading::listing::lines;
use crate::loading::station::{Loaded, Reader, load};
use crate::loading::tables::{LISTING, RECORD, ROW, Rubbish, Tables};
use common::fault::{fault, is};
use std::fs::File;
use std::io::{Read, Write, stdin, stdout};
use std::process::ExitCode;

/// `list FILE`: 0 accepted, 2 refused, 3 the question could not be asked.
pub fn command(words: &[String]) -> ExitCode {
    let [word, file] = words else {
        return usage();
    };
    match (word.as_str(), file.as_str()) {
        ("list", "-") => print(&mut stdin()),
        ("list", path) => match File::open(path).ok().filter(|file| file.metadata().is_ok_and(|data| data.is_file())) {
            Some(mut file) => print(&mut file),
            None if is("missing-file-is-empty") => print(&mut &b""[..]),
            None => {
                eprintln!("cannot open {path}");
                ExitCode::from(3)
            }
        },
        _ => usage(),
    }
}

fn usage() -> ExitCode {
    eprintln!("usage: list FILE");
    ExitCode::from(if is("usage-with-status-0") { 0 } else { 3 })
}

/// Prints the listing of one source: 0 accepted, 2 refused.
pub fn print(input: &mut impl Read) -> ExitCode {
    let source = read(input);
    let sizes = match fault() {
        "more-rows-lent" => Tables { surface: 1_025 * ROW, core: 1_025 * ROW, ..LISTING },
        "more-declarations-lent" => Tables { declarations: 257 * RECORD, ..LISTING },
        _ => LISTING,
    };
    let loaded = load(Reader::Frames, &source, sizes, Rubbish::Mixed);
    let text = text(&source, &loaded);
    stdout().write_all(text.as_bytes()).expect("standard output takes the listing");
    let refused = loaded.class != 0 && !is("refused-with-status-0");
    ExitCode::from(if refused { 2 } else { 0 })
}

/// At most 65,536 bytes, in as many pieces as they come.
fn read(input: &mut impl Read) -> Vec<u8> {
    let most = if is("input-of-65535-bytes") { 65_535 } else { 65_536 };
    let mut source = vec![0; most];
    let mut length = 0;
    while length < most {
        let count = input.read(&mut source[length..]).expect("standard input can be read");
        length += count;
        if count == 0 || is("input-read-once") {
            break;
        }
    }
    source.truncate(length);
    if is("input-as-text") {
        source = String::from_utf8_lossy(&source).into_owned().into_bytes();
    }
    source
}

fn text(source: &[u8], loaded: &Loaded) -> String {
    let mut lines = lines(source, loaded);
    for line in &mut lines {
        *line = mistaken(line, loaded);
    }
    if is("refusal-behind-a-listing") && loaded.class != 0 {
        lines.insert(0, String::from("nodes 0 declarations 0"));
    }
    let text = lines.join("\n");
    if is("no-newline-at-the-end") { text } else { text + "\n" }
}

/// Whether a row was read as an arrow.
fn is_arrow(row: &str, loaded: &Loaded) -> bool {
    row.parse().is_ok_and(|row: usize| loaded.tables.surface[row * ROW] == 25)
}

fn mistaken(line: &str, loaded: &Loaded) -> String {
    let words: Vec<&str> = line.split(' ').collect();
    match (fault(), &words[..]) {
        ("ref-printed", [at, "var" | "global", count]) => format!("{at} ref {count}"),
        ("universe-as-a-number", [at, "universe", digits]) => {
            format!("{at} universe {}", digits.parse().unwrap_or(u32::MAX))
        }
        ("body-of-a-postulate", [_, "postulate", ..]) => format!("{line} 0"),
        ("arrow-printed", [at, "pi", ..]) if is_arrow(at, loaded) => line.replacen("pi", "arrow", 1),
        ("binder-printed", [at, "lam", body]) => format!("{at} lam x {body}"),
        ("offset-of-nowhere", ["refused", _]) if loaded.answer[0] == 0 => format!("{line} at 0"),
        _ => line.to_string(),
    }
}
