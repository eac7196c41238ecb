//! Loading by the Rattle library against document 01 and the Rust:
//! loading replay [FOLDER], card, compare [COUNT [SEED]], classes, dependence [COUNT [SEED]], binder [COUNT [SEED]],
//! same [COUNT [SEED]], head [COUNT [SEED]], storage [COUNT [SEED]], program EVERY PROGRAM.
#[cfg(mock)]
#[allow(dead_code)]
mod faults;
mod loading {
    pub mod agreement;
    pub mod binder;
    pub mod bindings;
    pub mod card;
    pub mod chained;
    pub mod check;
    pub mod classes;
    pub mod compare;
    pub mod dependence;
    pub mod dependences;
    pub mod edges;
    pub mod expected;
    pub mod generated;
    pub mod head;
    pub mod heads;
    #[cfg(not(mock))]
    pub mod library;
    pub mod limits;
    pub mod listing;
    #[cfg(mock)]
    pub mod mock;
    pub mod needs;
    pub mod order;
    pub mod program;
    pub mod replay;
    pub mod same;
    #[cfg(not(mock))]
    pub mod sameness;
    pub mod scoped;
    pub mod short;
    pub mod sizes;
    pub mod station;
    pub mod storage;
    pub mod tables;
}

use std::process::ExitCode;

fn main() -> ExitCode {
    let words: Vec<String> = std::env::args().skip(1).collect();
    let number = |at: usize, default: usize| words.get(at).map_or(default, |text| text.parse().expect("a number"));
    match words.first().map(String::as_str) {
        Some("replay") => loading::replay::run(words.get(1).map_or("tests/lists", String::as_str)),
        Some("card") => loading::card::run(),
        Some("compare") => loading::compare::run(number(1, loading::compare::COUNT), number(2, 3) as u64),
        Some("classes") => loading::classes::run(),
        Some("program") if words.len() > 2 => loading::program::run(number(1, 1), &words[2..]),
        Some("dependence") => loading::dependence::run(number(1, loading::dependence::COUNT), number(2, 4) as u64),
        Some("binder") => loading::binder::run(number(1, loading::binder::COUNT), number(2, 6) as u64),
        Some("head") => loading::head::run(number(1, loading::head::COUNT), number(2, 7) as u64),
        Some("same") => loading::same::run(number(1, loading::same::COUNT), number(2, 5) as u64),
        Some("storage") => loading::storage::run(number(1, loading::storage::COUNT), number(2, 8) as u64),
        #[cfg(mock)]
        Some("--faults") => print_all(&common::fault::LOADING),
        #[cfg(mock)]
        Some("--plain-faults") => print_all(&common::fault::PLAIN),
        #[cfg(mock)]
        Some("--alone-faults") => print_all(&common::fault::ALONE),
        #[cfg(mock)]
        Some("--classes-faults") => print_all(&common::fault::CLASSES),
        #[cfg(mock)]
        Some("--dependence-faults") => print_all(&common::fault::DEPENDENCE),
        #[cfg(mock)]
        Some("--binder-faults") => print_all(&common::fault::BINDER),
        #[cfg(mock)]
        Some("--head-faults") => print_all(&common::fault::HEAD),
        #[cfg(mock)]
        Some("--same-faults") => print_all(&common::fault::SAME),
        #[cfg(mock)]
        Some("--storage-faults") => print_all(&common::fault::STORAGE),
        #[cfg(mock)]
        Some("--listing-faults") => print_all(&common::fault::LISTING),
        #[cfg(mock)]
        Some("listing") => loading::mock::listing::print(&mut std::io::stdin()),
        #[cfg(mock)]
        _ => loading::mock::listing::command(&words),
        #[cfg(not(mock))]
        _ => {
            let parts = ["compare", "dependence", "binder", "same", "head", "storage"]
                .map(|part| format!("{part} [COUNT [SEED]]"));
            eprintln!(
                "usage: loading replay [FOLDER] | card | classes | {} | program EVERY PROGRAM",
                parts.join(" | ")
            );
            ExitCode::from(2)
        }
    }
}

#[cfg(mock)]
fn print_all(faults: &[&str]) -> ExitCode {
    faults.iter().for_each(|fault| println!("{fault}"));
    ExitCode::SUCCESS
}
