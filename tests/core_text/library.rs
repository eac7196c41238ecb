//! Core text by the Rattle library `sulyterom` through the Rust crate over it, its answers as document 02's numbers again.
//! Under `--cfg mock` the mock stands in its place.
use crate::loading::library::{numbers, tables};
use crate::loading::tables::Tables;
use sulyterom::{CoreText, Refusal};

/// The class, 0 for acceptance; the answer is 1 and the text's length, or what a refusal tells.
pub fn print(source: &[u8], lent: Tables<&mut [u32]>, text: &mut [u8], answer: &mut [u64; 3]) -> u8 {
    let length = sulyterom::print(source, &mut tables(lent), text).map(|printed| [1, printed.text.len() as u64, 0]);
    numbers(length, answer)
}

/// The class, 0 for acceptance; the answer is 2, rows and declarations, or what a refusal tells.
pub fn read_core(text: &[u8], lent: Tables<&mut [u32]>, answer: &mut [u64; 3]) -> u8 {
    numbers(counts(sulyterom::read_core(text, &mut tables(lent))), answer)
}

/// The same of a text that must be its own print.
pub fn read_canonical(text: &[u8], lent: Tables<&mut [u32]>, answer: &mut [u64; 3]) -> u8 {
    numbers(counts(sulyterom::read_canonical(text, &mut tables(lent))), answer)
}

fn counts(read: Result<CoreText<'_>, Refusal>) -> Result<[u64; 3], Refusal> {
    read.map(|read| [2, read.row_count() as u64, read.declaration_count() as u64])
}
