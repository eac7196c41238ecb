//! The dependence question against loading alone: of the longest chains of declarations that each name the one before, the last
//! is asked about the first.
use crate::row::{head, line, marked, number};
use crate::sources::chained;
use std::hint::black_box;
use sulyterom::{LONGEST_SOURCE, Tables, depends, load};

/// The word that chooses this table alone.
pub const WORD: &str = "dependence";

/// The question loads the source: it is to take at most so many times what that takes.
const MOST: f64 = 2.0;

pub struct Chain {
    about: &'static str,
    yes: bool,
    text: Vec<u8>,
    rows: usize,
    declarations: usize,
}

/// What a turn does: loading alone, and the question.
pub const TASKS: usize = 2;

pub fn chains() -> Vec<Chain> {
    let chain = |about, yes, source: fn(usize) -> String| {
        let text = source(LONGEST_SOURCE).into_bytes();
        let mut tables = Tables::for_bytes(text.len());
        let loaded = load(&text, &mut tables).expect("accepted");
        let (rows, declarations) = (loaded.row_count(), loaded.declaration_count());
        Chain { about, yes, text, rows, declarations }
    };
    vec![
        chain("`(postulate b(ref a))`: through types", true, chained::types),
        chain("`(transparent b nat(ref a))`: through bodies", true, chained::transparent),
        chain("`(opaque b nat(ref a))`: each body ends it", false, chained::opaque),
    ]
}

/// A chain with the tables that are lent for it again and again; no row or record to spare.
pub struct Turns<'a> {
    chain: &'a Chain,
    tables: Tables,
}

impl<'a> Turns<'a> {
    pub fn new(chain: &'a Chain) -> Self {
        Self { chain, tables: Tables::with_sizes(chain.rows, chain.declarations) }
    }

    pub fn turn(&mut self, task: usize) {
        let Chain { text, rows, declarations, yes, .. } = self.chain;
        if task == 0 {
            let loaded = load(black_box(text), &mut self.tables).map_or(0, |loaded| loaded.row_count());
            return assert_eq!(black_box(loaded), *rows, "rows of a chain");
        }
        let answer = depends(black_box(text), declarations - 1, 0, &mut self.tables);
        assert_eq!(black_box(answer.map(|answer| answer.row.is_some())), Ok(*yes), "the answer of a chain");
    }
}

/// What was measured of a chain; instructions only with valgrind.
pub struct Measured<'a> {
    pub chain: &'a Chain,
    pub counts: Option<[u64; TASKS]>,
    pub seconds: [f64; TASKS],
}

impl Measured<'_> {
    /// How many times the instructions of loading the question takes.
    fn times(&self) -> Option<f64> {
        self.counts.map(|[loading, question]| question as f64 / loading as f64)
    }

    fn cells(&self) -> Vec<String> {
        let Chain { about, yes, text, rows, declarations } = self.chain;
        let mut cells = vec![(*about).to_owned(), (if *yes { "yes" } else { "no" }).to_owned()];
        cells.extend([text.len(), *rows, *declarations].map(|count| count.to_string()));
        cells.extend((0..TASKS).map(|task| number(self.counts.map(|counts| counts[task] as f64), 0)));
        cells.push(marked(self.times(), |times| times <= MOST));
        cells.extend(self.seconds.map(|seconds| number(Some(seconds * 1e6), 0)));
        cells.push(marked(Some(self.seconds[1] / self.seconds[0]), |times| times <= MOST));
        cells
    }
}

/// A line for each chain, and behind them on how many the goal is reached.
pub fn print(measured: &[Measured]) {
    println!("\n### The dependence question against loading alone\n");
    let titles = ["chain", "the last on the first", "bytes", "rows", "declarations"];
    let columns = ["instructions, loading", "the question", "times", "microseconds, loading", "the question", "times"];
    println!("{}", head(&titles.iter().chain(&columns).map(|title| (*title).to_owned()).collect::<Vec<_>>()));
    measured.iter().for_each(|chain| println!("{}", line(&chain.cells())));
    println!("\n{}", conclusion(measured));
}

fn conclusion(measured: &[Measured]) -> String {
    let within = |times: Vec<f64>| times.iter().filter(|times| **times <= MOST).count();
    let timed = within(measured.iter().map(|chain| chain.seconds[1] / chain.seconds[0]).collect());
    let by_the_clock = format!("on {timed} of {} chains by the clock", measured.len());
    let goal = format!("The question is to take at most {MOST} times what loading takes");
    let counted: Option<Vec<f64>> = measured.iter().map(Measured::times).collect();
    match counted.map(within) {
        Some(counted) => {
            format!("{goal}. It does on {counted} of {} chains by instructions, {by_the_clock}.", measured.len())
        }
        None => format!("{goal}. It does {by_the_clock}; instructions are counted by valgrind."),
    }
}
