//! Document 01's listing from what loading leaves. It takes rows as they are, so that wrong ones show.
use super::station::Loaded;
use super::tables::{RECORD, ROW};
use common::vocabulary::{DECLARATION_KINDS, FORMS, KINDS};

/// The lines of the listing, or the one line of a refusal.
pub fn lines(source: &[u8], loaded: &Loaded) -> Vec<String> {
    let [_, first, second] = loaded.answer;
    match (loaded.class, loaded.answer[0]) {
        (0, _) => {
            let mut lines = vec![format!("nodes {first} declarations {second}")];
            let rows = loaded.tables.core.chunks_exact(ROW).take(first as usize);
            lines.extend(rows.enumerate().map(|(at, row)| format!("{at} {}", row_line(source, row))));
            let records = loaded.tables.declarations.chunks_exact(RECORD).take(second as usize);
            lines.extend(records.enumerate().map(|(at, record)| format!("{at} {}", record_line(source, record))));
            lines
        }
        (class, 0) => vec![format!("refused {class}")],
        (class, _) => vec![format!("refused {class} at {first}")],
    }
}

fn row_line(source: &[u8], row: &[u32]) -> String {
    let word = word(&KINDS, row[0]);
    let fields = match word {
        "var" | "global" => vec![row[1].to_string()],
        "universe" => vec![bytes(source, row[1], row[2])],
        _ => {
            let arity = FORMS.iter().find(|form| form.word == word).map_or(0, |form| form.arity);
            row[1..=arity].iter().map(u32::to_string).collect()
        }
    };
    [vec![word.to_string()], fields].concat().join(" ")
}

fn record_line(source: &[u8], record: &[u32]) -> String {
    let word = word(&DECLARATION_KINDS, record[0]);
    let line = format!("{word} {} {}", bytes(source, record[1], record[2]), record[3]);
    if word == "postulate" { line } else { format!("{line} {}", record[4]) }
}

fn word(kinds: &[&'static str], kind: u32) -> &'static str {
    let place = (kind as usize).checked_sub(1);
    place.and_then(|place| kinds.get(place)).copied().unwrap_or("no-kind")
}

fn bytes(source: &[u8], start: u32, length: u32) -> String {
    let (start, length) = (start as usize, length as usize);
    let part = start.checked_add(length).and_then(|end| source.get(start..end));
    part.map_or(String::from("no-part"), |part| String::from_utf8_lossy(part).into_owned())
}
