//! Reading alone and loading, measured against the Rust: `measure [--quick] [KIND..]` prints the tables of
//! docs/PERFORMANCE.md, for some kinds or all; with `--count` it only works, for a counter of instructions, and with
//! `--branches` for one of branches too. `dependence` in the place of a kind is the table of the dependence question, `three`
//! that of reading three long sources; both are printed where no kind is named too.
mod measuring {
    pub mod branches;
    pub mod case;
    pub mod chain;
    pub mod clock;
    pub mod count;
    pub mod goals;
    pub mod kinds;
    pub mod report;
    pub mod row;
    pub mod sources;
    pub mod three;
    pub mod work;
}
use measuring::{branches, case, chain, clock, count, goals, kinds, report, row, sources, three, work};

use case::{Case, cases};
use chain::{Chain, Measured, chains};
use kinds::{KINDS, Kind, SIZES, kind_of};
use row::Row;

/// A look at what others change most.
const QUICK: [&str; 5] = ["short", "random-tight", "previous", "wide-j", "unicode"];
const QUICK_SIZES: [usize; 1] = [SIZES[1]];

/// The words in the place of a kind, each for a table of its own.
const WORDS: [&str; 2] = [chain::WORD, three::WORD];

fn main() {
    let words: Vec<String> = std::env::args().skip(1).collect();
    let has = |word: &str| words.iter().any(|one| one == word);
    if has(branches::WORD) {
        return branches::turns(&three::sources());
    }
    let sizes = if has("--quick") { &QUICK_SIZES[..] } else { &SIZES[..] };
    let named: Vec<&str> = words.iter().map(String::as_str).filter(|word| !word.starts_with("--")).collect();
    let kinds = chosen(&named, has("--quick"));
    let cases: Vec<Case> = kinds.iter().flat_map(|kind| cases(kind, sizes)).collect();
    let asks = |word: &str| named.is_empty() || has(word);
    let chains = if asks(chain::WORD) { chains() } else { Vec::new() };
    if has(count::WORD) {
        return count::turns(&cases, &chains);
    }
    let (of_cases, of_chains) = count::counts(&words, &cases, &chains).unzip();
    let rows: Vec<Row> = measured(&cases, of_cases, |case, counts| Row { case, counts, seconds: clock::seconds(case) });
    let asked = measured(&chains, of_chains, |chain: &Chain, counts| {
        let seconds = clock::chain_seconds(chain);
        Measured { chain, counts, seconds }
    });
    let sources = if asks(three::WORD) { three::sources() } else { Vec::new() };
    let long = measured(&sources, branches::counts(&sources), three::measured);
    report::print(&kinds, &rows, &asked, &long);
}

/// What is measured of each, with its instructions where these were counted.
fn measured<'a, T, C, M>(all: &'a [T], counts: Option<Vec<C>>, of: impl Fn(&'a T, Option<C>) -> M) -> Vec<M> {
    let mut counts = counts.map(Vec::into_iter);
    all.iter().map(|one| of(one, counts.as_mut().and_then(Iterator::next))).collect()
}

/// The kinds that are named, or the quick ones, or all.
fn chosen(named: &[&str], quick: bool) -> Vec<&'static Kind> {
    let names: Vec<&str> = match (named, quick) {
        ([], true) => QUICK.to_vec(),
        ([], false) => KINDS.iter().map(|kind| kind.name).collect(),
        _ => named.iter().copied().filter(|name| !WORDS.contains(name)).collect(),
    };
    names.iter().map(|name| kind_of(name).unwrap_or_else(|| panic!("no kind {name}"))).collect()
}
