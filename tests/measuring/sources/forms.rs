//! Forms in forms.
use super::{filled, most, under_j};
use common::vocabulary::LEAVES;

pub fn deep(size: usize) -> String {
    nested(size, 200, "(pi x nat (app (ref x) ", "))")
}

pub fn nested_fst(size: usize) -> String {
    nested(size, 512, "(fst ", ")")
}

/// Declarations of so many openings with their ends, or of as many as fit.
fn nested(size: usize, count: usize, open: &str, close: &str) -> String {
    filled(size, |place, room| {
        most(count, room, |count| format!("(postulate d{place} {}star{})\n", open.repeat(count), close.repeat(count)))
    })
}

pub fn wide_j(size: usize) -> String {
    filled(size, |place, room| {
        most(216, room, |count| {
            let leaves = (0..count).map(|at| LEAVES[at % LEAVES.len()].to_owned()).collect();
            format!("(postulate d{place} {})\n", under_j(leaves))
        })
    })
}
