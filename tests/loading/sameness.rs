//! The same-core question of the Rattle library `sulyterom` through the Rust crate, its answers as numbers again.
use super::library::tables;
use super::tables::Tables;
use sulyterom::{Comparison, Refusal};

/// The class, 0 for yes and no; the answer is 0 for a yes, 1 and a place for a no. The work area is that of `one`.
pub fn same(sources: [&[u8]; 2], one: Tables<&mut [u32]>, other: Tables<&mut [u32]>, answer: &mut [u64; 3]) -> u8 {
    let refused = |which: u64, refusal: Refusal| {
        let numbers = refusal.offset.map_or([1, which, 0], |offset| [2, which, offset as u64]);
        (refusal.class.number(), numbers)
    };
    let (class, numbers) = match sulyterom::same(sources[0], sources[1], &mut tables(one), &mut tables(other)) {
        Comparison::Same => (0, [0; 3]),
        Comparison::Different { declaration } => (0, [1, declaration as u64, 0]),
        Comparison::FirstRefused(refusal) => refused(1, refusal),
        Comparison::SecondRefused(refusal) => refused(2, refusal),
    };
    *answer = numbers;
    class
}
