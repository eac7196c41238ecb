//! Mispredicted branches, as the predictor counts them that valgrind's callgrind simulates: a run of its own for the three long
//! sources, so that all else is counted without it.
use crate::count::{case_counts, case_turns, totals};
use crate::three::Source;

/// What the run is told to do.
pub const WORD: &str = "--branches";

const OPTIONS: [&str; 1] = ["--branch-sim=yes"];
/// Instructions, and mispredicted branches: conditional ones and indirect ones.
const EVENTS: [&str; 3] = ["Ir", "Bcm", "Bim"];

/// Instructions and mispredicted branches of a source by each who reads.
pub type Counts = (Vec<u64>, Vec<u64>);

/// The run that is counted.
pub fn turns(sources: &[Source]) {
    sources.iter().for_each(|source| case_turns(&source.case));
}

/// What is counted of the sources, in order; none without valgrind.
pub fn counts(sources: &[Source]) -> Option<Vec<Counts>> {
    if sources.is_empty() {
        return None;
    }
    let totals = totals(&[WORD], &OPTIONS, EVENTS)?.into_iter();
    let mut turns = totals.map(|[instructions, conditional, indirect]| [instructions, conditional + indirect]);
    let of_source = |source: &Source| case_counts(&source.case, &mut turns).map(<(u64, u64)>::from).unzip();
    let counts = sources.iter().map(of_source).collect();
    assert_eq!(turns.count(), 0, "turns of nothing");
    Some(counts)
}
