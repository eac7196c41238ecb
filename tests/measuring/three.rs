//! Reading three long sources against the Rust: bytes a second, instructions, and branches that are mispredicted.
use crate::branches::Counts;
use crate::case::{Case, reading};
use crate::clock;
use crate::kinds::{SIZES, kind_of};
use crate::row::{Row, head, line, number, ratio, titles};
use crate::work::Who;

/// The word that chooses this table alone.
pub const WORD: &str = "three";

/// Bytes a second are to be at least so many times the Rust's.
const GOAL: f64 = 2.0;
/// What the request asks for, and of instructions: not to be behind.
const EVEN: f64 = 1.0;

/// What the sources are made of, and the kinds of which they are the long ones.
const SOURCES: [(&str, &str); 3] = [("deep terms", "deep"), ("names", "names"), ("comments and layout", "comments")];
const SIZE: usize = SIZES[2];

/// Whose figures are shown.
const WHOS: [Who; 3] = [Who::Lent, Who::Plain, Who::Rust];

pub struct Source {
    about: &'static str,
    pub case: Case,
}

pub fn sources() -> Vec<Source> {
    let source = |(about, kind)| Source { about, case: reading(kind_of(kind).expect("a kind"), SIZE) };
    SOURCES.into_iter().map(source).collect()
}

/// What was measured of a source.
pub struct Measured<'a> {
    about: &'static str,
    row: Row<'a>,
    /// Branches, of each who reads; none without valgrind.
    mispredicted: Option<Vec<u64>>,
}

pub fn measured(source: &Source, counts: Option<Counts>) -> Measured<'_> {
    let (counts, mispredicted) = counts.unzip();
    let row = Row { case: &source.case, counts, seconds: clock::seconds(&source.case) };
    Measured { about: source.about, row, mispredicted }
}

impl Measured<'_> {
    /// Mispredicted branches per 1,000 bytes.
    fn mispredicted(&self, who: Who) -> Option<f64> {
        let branches = self.mispredicted.as_ref()?[self.row.place(who)?];
        Some(branches as f64 * 1e3 / self.row.case.text.len() as f64)
    }

    fn cells(&self) -> Vec<String> {
        let (row, case) = (&self.row, self.row.case);
        let mut cells = vec![format!("{}: `{}`", self.about, case.kind.name)];
        cells.extend([case.text.len(), case.rows, case.declarations].map(|count| count.to_string()));
        cells.extend(WHOS.map(|who| number(row.rate(who), 0)));
        cells.push(ratio(row.quicker(Who::Lent), GOAL));
        cells.extend(WHOS.map(|who| number(row.instructions(who), 1)));
        cells.push(ratio(row.fewer(Who::Lent), EVEN));
        cells.extend(WHOS.map(|who| number(self.mispredicted(who), 1)));
        cells
    }
}

fn all_titles() -> Vec<String> {
    let mut all = ["source", "bytes", "rows", "declarations"].map(str::to_owned).to_vec();
    all.extend(titles("MB/s", &WHOS));
    all.push("times quicker".to_owned());
    all.extend(titles("instructions a byte", &WHOS));
    all.push("times fewer".to_owned());
    all.extend(titles("mispredicted branches per 1,000 bytes", &WHOS));
    all
}

/// A line for each source, and behind them on how many the goal is reached.
pub fn print(measured: &[Measured]) {
    println!("\n### Reading three long sources\n");
    println!("{}", head(&all_titles()));
    measured.iter().for_each(|source| println!("{}", line(&source.cells())));
    println!("\n{}", conclusion(measured));
}

fn conclusion(measured: &[Measured]) -> String {
    let quicker = measured.iter().filter_map(|source| source.row.quicker(Who::Lent));
    let reached = |asked: f64| quicker.clone().filter(|quicker| *quicker >= asked).count();
    let (all, goal, request) = (measured.len(), reached(GOAL), reached(EVEN));
    format!(
        "The goal, at least {GOAL} times the Rust's bytes a second, is reached on {goal} of {all} sources; the \
         request's own, at least the Rust's, on {request} of {all}."
    )
}
