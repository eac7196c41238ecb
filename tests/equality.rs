//! Two names: whether they are equal, and where they differ first, against what Rust's own slices say.
use crate::probe;
use common::escape::escape;
use common::tally::{Mismatch, differ};

/// Both ways round.
pub fn check(a: &[u8], b: &[u8]) -> Option<Mismatch> {
    one_way(a, b).or_else(|| one_way(b, a))
}

fn one_way(a: &[u8], b: &[u8]) -> Option<Mismatch> {
    let place = || differ("first difference", shown(first_difference(a, b)), shown(probe::first_difference(a, b)));
    let mismatch = differ("equality", a == b, probe::same_bytes(a, b)).or_else(place)?;
    let what = format!("{} of {} and {}", mismatch.what, escape(a), escape(b));
    Some(Mismatch { what, ..mismatch })
}

/// "the first place where two equally long names differ, or their length when there is none"; those of other lengths have none.
fn first_difference(a: &[u8], b: &[u8]) -> Option<usize> {
    let place = a.iter().zip(b).position(|(x, y)| x != y);
    (a.len() == b.len()).then(|| place.unwrap_or(a.len()))
}

fn shown(place: Option<usize>) -> String {
    place.map_or_else(|| "none".to_owned(), |place| place.to_string())
}
