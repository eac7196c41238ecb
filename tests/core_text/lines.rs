//! What a reader leaves, as lines: the counts, each row with its numeral or children and behind `@` where its term
//! starts, and each declaration with its name as it is written. Rows are taken as they are, so that wrong ones show.
use crate::loading::station::Loaded;
use crate::loading::tables::{OFFSET, RECORD, ROW};
use common::vocabulary::{DECLARATION_KINDS, FORMS, KINDS};

/// The lines, or the one line of a refusal.
pub fn lines(text: &[u8], read: &Loaded) -> Vec<String> {
    let [values, first, second] = read.answer;
    match (read.class, values) {
        (0, _) => {
            let rows = read.tables.core.chunks_exact(ROW).take(first as usize).map(|row| row_line(text, row));
            let records = read.tables.declarations.chunks_exact(RECORD).take(second as usize);
            let records = records.map(|record| record_line(text, record));
            let numbered = |lines: Vec<String>| lines.into_iter().enumerate().map(|(at, line)| format!("{at} {line}"));
            let (rows, records) = (numbered(rows.collect()), numbered(records.collect()));
            [format!("rows {first} declarations {second}")].into_iter().chain(rows).chain(records).collect()
        }
        (class, 0) => vec![format!("refused {class}")],
        (class, _) => vec![format!("refused {class} at {first}")],
    }
}

fn row_line(text: &[u8], row: &[u32]) -> String {
    let word = word(&KINDS, row[0]);
    let fields = match word {
        "var" | "global" | "universe" => vec![part(text, row)],
        _ => {
            let arity = FORMS.iter().find(|form| form.word == word).map_or(0, |form| form.arity);
            row[1..=arity].iter().map(u32::to_string).collect()
        }
    };
    [vec![word.to_string()], fields, vec![format!("@{}", row[OFFSET])]].concat().join(" ")
}

fn record_line(text: &[u8], record: &[u32]) -> String {
    let word = word(&DECLARATION_KINDS, record[0]);
    let line = format!("{word} {} {}", part(text, record), record[3]);
    if word == "postulate" { line } else { format!("{line} {}", record[4]) }
}

fn word(kinds: &[&'static str], kind: u32) -> &'static str {
    let place = (kind as usize).checked_sub(1);
    place.and_then(|place| kinds.get(place)).copied().unwrap_or("no-kind")
}

/// The bytes whose start and length are the second and third word.
fn part(text: &[u8], words: &[u32]) -> String {
    let (start, length) = (words[1] as usize, words[2] as usize);
    let part = start.checked_add(length).and_then(|end| text.get(start..end));
    part.map_or(String::from("no-part"), |part| String::from_utf8_lossy(part).into_owned())
}
