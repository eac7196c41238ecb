//! Core text by the Rattle library against document 02 and the Rust:
//! core_text card, print [COUNT [SEED]], read [COUNT [SEED]].
mod core_text {
    pub mod card;
    pub mod check;
    pub mod edges;
    pub mod expected;
    pub mod layout;
    #[cfg(not(mock))]
    pub mod library;
    pub mod lines;
    #[cfg(mock)]
    pub mod mock;
    pub mod order;
    pub mod print;
    pub mod prints;
    pub mod read;
    pub mod station;
    pub mod strings;
    pub mod texts;
    pub mod tokens;
}
#[cfg(mock)]
#[allow(dead_code)]
mod faults;
// A part of what loading is tested by. Without the path rustfmt would look in this file's own folder.
#[allow(dead_code)]
#[path = "loading"]
mod loading {
    pub mod check;
    pub mod edges;
    pub mod expected;
    pub mod generated;
    #[cfg(not(mock))]
    pub mod library;
    pub mod listing;
    #[cfg(mock)]
    pub mod mock;
    pub mod order;
    #[cfg(not(mock))]
    pub mod sameness;
    pub mod short;
    pub mod sizes;
    pub mod station;
    pub mod tables;
}

use std::process::ExitCode;

fn main() -> ExitCode {
    let words: Vec<String> = std::env::args().skip(1).collect();
    let number = |at: usize, default: usize| words.get(at).map_or(default, |text| text.parse().expect("a number"));
    match words.first().map(String::as_str) {
        Some("card") => core_text::card::run(),
        Some("print") => core_text::print::run(number(1, core_text::print::COUNT), number(2, 6) as u64),
        Some("read") => core_text::read::run(number(1, core_text::read::COUNT), number(2, 7) as u64),
        #[cfg(mock)]
        Some("--print-faults") => print_all(&common::fault::PRINTING),
        #[cfg(mock)]
        Some("--read-faults") => print_all(&common::fault::READING),
        _ => {
            eprintln!("usage: core_text card | print [COUNT [SEED]] | read [COUNT [SEED]]");
            ExitCode::from(2)
        }
    }
}

#[cfg(mock)]
fn print_all(faults: &[&str]) -> ExitCode {
    faults.iter().for_each(|fault| println!("{fault}"));
    ExitCode::SUCCESS
}
