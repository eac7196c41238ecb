//! Sizes of the tables around what a source needs.
use super::order::Limits;
use super::tables::{LISTING, RECORD, ROW, Sizes, Tables, WORK};
use common::prng::Prng;

/// As many rows and records as are wanted, no word more.
pub fn exact(need: Limits) -> Sizes {
    Tables { surface: need.rows * ROW, core: need.rows * ROW, declarations: need.declarations * RECORD, work: WORK }
}

/// Sizes at and beside the exact ones, and odd ones, each once.
pub fn around(need: Limits) -> Vec<Sizes> {
    let exact = exact(need);
    let fewer = exact.map(|words| words.saturating_sub(1));
    let nothing = Tables { surface: 0, core: 0, declarations: 0, work: WORK };
    let mut all = vec![exact, LISTING, nothing];
    for surface in [fewer.surface, exact.surface + 1, exact.surface + 7, 31, 0] {
        all.push(Tables { surface, ..exact });
        all.push(Tables { surface, ..LISTING });
    }
    for core in [fewer.core, exact.core + 1, exact.core + 15, 31, 0] {
        all.push(Tables { core, ..exact });
        all.push(Tables { core, ..LISTING });
    }
    for declarations in [fewer.declarations, exact.declarations + 1, exact.declarations + 9, 31, 0] {
        all.push(Tables { declarations, ..exact });
    }
    for work in [WORK - 1, WORK, WORK + 16, 0] {
        all.push(Tables { work, ..exact });
        all.push(Tables { work, ..nothing });
    }
    // of two that are one too few, which is met first
    all.push(Tables { work: WORK, ..fewer });
    all.push(Tables { core: exact.core, work: WORK, ..fewer });
    all.push(Tables { surface: exact.surface, work: WORK, ..fewer });
    all.push(Tables { declarations: exact.declarations, work: WORK, ..fewer });
    all.sort_unstable();
    all.dedup();
    all
}

/// Sizes that suffice, with some words left over.
pub fn enough(need: Limits, prng: &mut Prng) -> Sizes {
    let mut more = |words: usize| words + *prng.pick(&[0, 0, 1, 4, 7, 8, 40, 1_000]);
    exact(need).map(&mut more)
}

/// Any sizes, for the greater part near to what is wanted.
pub fn random(need: Limits, prng: &mut Prng) -> Sizes {
    let exact = exact(need);
    let near = |words: usize, prng: &mut Prng| match prng.below(12) {
        0..=4 => words,
        5 | 6 => words + prng.below(20),
        7 | 8 => words.saturating_sub(1 + prng.below(10)),
        9 => prng.below(words + 1),
        10 => 31,
        _ => words + 500,
    };
    let work = match prng.below(40) {
        0 | 1 => prng.below(WORK),
        2 | 3 => WORK - 1,
        _ => WORK + *prng.pick(&[0, 0, 0, 1, 16, 500]),
    };
    Tables {
        surface: near(exact.surface, prng),
        core: near(exact.core, prng),
        declarations: near(exact.declarations, prng),
        work,
    }
}
