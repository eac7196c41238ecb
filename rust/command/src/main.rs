//! The command `sulyterom`: files, words and exit statuses around the proved library, which gives every answer.
mod answer;
mod columns;
mod questions;
mod sentence;
mod source;
mod standard;
mod text_sentence;
mod usage;

use answer::{Answer, NotAsked, Status};
use std::ffi::OsString;
use std::io::Write;
use std::process::ExitCode;

fn main() -> ExitCode {
    let words: Vec<OsString> = std::env::args_os().skip(1).collect();
    let told = usage::parsed(&words).and_then(|question| question.asked()).and_then(printed);
    told.unwrap_or_else(|not_asked| {
        complain(&not_asked.message());
        Status::NotAsked
    })
    .into()
}

/// Prints an answer. What could not be printed was not told, whatever it was.
fn printed(answer: Answer) -> Result<Status, NotAsked> {
    let cannot = |error| NotAsked(format!("cannot write standard output: {}", source::reason(&error)));
    standard::print(&answer.text).map_err(cannot)?;
    answer.messages.iter().for_each(|message| complain(message));
    Ok(answer.status)
}

/// A line on standard error, if that takes it.
fn complain(message: &str) {
    let _ = writeln!(std::io::stderr(), "{message}");
}
