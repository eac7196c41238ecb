//! The Rattle library `sulyterom` through the Rust crate over it, its answers as document 01's numbers again. Under
//! `--cfg mock` the mock stands in its place.
use super::station::Reader;
use super::tables::Tables;
use sulyterom::{Binding, Refusal};

// The crate does not read alone. A slice passes as a pointer and then a length.
unsafe extern "C" {
    fn sulyterom_parse(
        source: *const u8,
        source_length: usize,
        surface: *mut u32,
        surface_length: usize,
        declarations: *mut u32,
        declarations_length: usize,
        work: *mut u32,
        work_length: usize,
        answer: *mut u64,
        answer_length: usize,
    ) -> u8;

    fn sulyterom_parse_plain(
        source: *const u8,
        source_length: usize,
        surface: *mut u32,
        surface_length: usize,
        declarations: *mut u32,
        declarations_length: usize,
        work: *mut u32,
        work_length: usize,
        answer: *mut u64,
        answer_length: usize,
    ) -> u8;
}

/// The class, 0 for acceptance; the answer is how many values follow, and the values.
pub fn load(reader: Reader, source: &[u8], lent: Tables<&mut [u32]>, answer: &mut [u64; 3]) -> u8 {
    let reader = match reader {
        Reader::Frames => sulyterom::Reader::Frames,
        Reader::Plain => sulyterom::Reader::Plain,
    };
    let loaded = sulyterom::load_by(source, &mut tables(lent), reader)
        .map(|loaded| [2, loaded.row_count() as u64, loaded.declaration_count() as u64]);
    numbers(loaded, answer)
}

/// As for loading. The core table is not lent.
pub fn read(reader: Reader, source: &[u8], lent: Tables<&mut [u32]>, answer: &mut [u64; 3]) -> u8 {
    let Tables { surface, declarations, work, .. } = lent;
    let parse = match reader {
        Reader::Frames => sulyterom_parse,
        Reader::Plain => sulyterom_parse_plain,
    };
    // SAFETY: each pointer comes with its slice's length.
    unsafe {
        parse(
            source.as_ptr(),
            source.len(),
            surface.as_mut_ptr(),
            surface.len(),
            declarations.as_mut_ptr(),
            declarations.len(),
            work.as_mut_ptr(),
            work.len(),
            answer.as_mut_ptr(),
            answer.len(),
        )
    }
}

/// Whether declaration i depends on j: the class, 0 for yes and no; the answer is 1 and a row for a yes, 0 for a no.
pub fn depends(source: &[u8], [i, j]: [usize; 2], lent: Tables<&mut [u32]>, answer: &mut [u64; 3]) -> u8 {
    let shown = sulyterom::depends(source, i, j, &mut tables(lent)).map(|answer| at_most_one(answer.row));
    numbers(shown, answer)
}

/// What binds the reference at a row: the class, 0 for an answer; the answer is 2, a count and a row, or 1 and a place.
pub fn binder(source: &[u8], row: usize, lent: Tables<&mut [u32]>, answer: &mut [u64; 3]) -> u8 {
    let bound = sulyterom::binder(source, row, &mut tables(lent)).map(|bound| match bound.binding {
        Binding::Local { count, row } => [2, count as u64, row as u64],
        Binding::Global { place } => [1, place as u64, 0],
    });
    numbers(bound, answer)
}

/// The module's name: the class, 0 for a name; the answer is 2, its start and its length.
pub fn head(source: &[u8], answer: &mut [u64; 3]) -> u8 {
    numbers(sulyterom::head(source).map(|name| [2, name.start as u64, name.bytes.len() as u64]), answer)
}

/// What a source needs: the class, 0 for an answer; the answer is 3, the rows, the declarations and the frames.
pub fn storage(source: &[u8], work: &mut [u32], answer: &mut [u64; 4]) -> u8 {
    let told = sulyterom::storage(source, work);
    numbers(told.map(|needs| [3, needs.rows as u64, needs.declarations as u64, needs.frames as u64]), answer)
}

pub fn tables(lent: Tables<&mut [u32]>) -> sulyterom::Tables<&mut [u32]> {
    let Tables { surface, core, declarations, work } = lent;
    sulyterom::Tables::from_words(surface, core, declarations, work)
}

fn at_most_one<const N: usize>(value: Option<usize>) -> [u64; N] {
    let mut numbers = [0; N];
    if let Some(value) = value {
        [numbers[0], numbers[1]] = [1, value as u64];
    }
    numbers
}

pub fn numbers<const N: usize>(told: Result<[u64; N], Refusal>, answer: &mut [u64; N]) -> u8 {
    match told {
        Ok(values) => {
            *answer = values;
            0
        }
        Err(refusal) => {
            *answer = at_most_one(refusal.offset);
            refusal.class.number()
        }
    }
}
