//! The functions of libsulyterom.a behind safe ones. Nothing is asked of the numbers and of what the slices hold: only that
//! each pointer belongs to its length and that no two of the tables overlap, as slices of Rust do.
use crate::{Reader, Tables};

// A slice passes as a pointer and then a length.
#[link(name = "sulyterom", kind = "static")]
unsafe extern "C" {
    fn sulyterom_load(
        source: *const u8,
        source_length: usize,
        surface: *mut u32,
        surface_length: usize,
        core: *mut u32,
        core_length: usize,
        declarations: *mut u32,
        declarations_length: usize,
        work: *mut u32,
        work_length: usize,
        answer: *mut u64,
        answer_length: usize,
    ) -> u8;

    fn sulyterom_load_plain(
        source: *const u8,
        source_length: usize,
        surface: *mut u32,
        surface_length: usize,
        core: *mut u32,
        core_length: usize,
        declarations: *mut u32,
        declarations_length: usize,
        work: *mut u32,
        work_length: usize,
        answer: *mut u64,
        answer_length: usize,
    ) -> u8;

    fn sulyterom_depends(
        source: *const u8,
        source_length: usize,
        i: usize,
        j: usize,
        surface: *mut u32,
        surface_length: usize,
        core: *mut u32,
        core_length: usize,
        declarations: *mut u32,
        declarations_length: usize,
        work: *mut u32,
        work_length: usize,
        answer: *mut u64,
        answer_length: usize,
    ) -> u8;

    fn sulyterom_binder(
        source: *const u8,
        source_length: usize,
        row: usize,
        surface: *mut u32,
        surface_length: usize,
        core: *mut u32,
        core_length: usize,
        declarations: *mut u32,
        declarations_length: usize,
        work: *mut u32,
        work_length: usize,
        answer: *mut u64,
        answer_length: usize,
    ) -> u8;

    fn sulyterom_same(
        first: *const u8,
        first_length: usize,
        second: *const u8,
        second_length: usize,
        surface1: *mut u32,
        surface1_length: usize,
        core1: *mut u32,
        core1_length: usize,
        declarations1: *mut u32,
        declarations1_length: usize,
        surface2: *mut u32,
        surface2_length: usize,
        core2: *mut u32,
        core2_length: usize,
        declarations2: *mut u32,
        declarations2_length: usize,
        work: *mut u32,
        work_length: usize,
        answer: *mut u64,
        answer_length: usize,
    ) -> u8;

    fn sulyterom_list(
        source: *const u8,
        source_length: usize,
        surface: *mut u32,
        surface_length: usize,
        core: *mut u32,
        core_length: usize,
        declarations: *mut u32,
        declarations_length: usize,
        work: *mut u32,
        work_length: usize,
        text: *mut u8,
        text_length: usize,
        answer: *mut u64,
        answer_length: usize,
    ) -> u8;

    fn sulyterom_list_plain(
        source: *const u8,
        source_length: usize,
        surface: *mut u32,
        surface_length: usize,
        core: *mut u32,
        core_length: usize,
        declarations: *mut u32,
        declarations_length: usize,
        work: *mut u32,
        work_length: usize,
        text: *mut u8,
        text_length: usize,
        answer: *mut u64,
        answer_length: usize,
    ) -> u8;

    fn sulyterom_print(
        source: *const u8,
        source_length: usize,
        surface: *mut u32,
        surface_length: usize,
        core: *mut u32,
        core_length: usize,
        declarations: *mut u32,
        declarations_length: usize,
        work: *mut u32,
        work_length: usize,
        text: *mut u8,
        text_length: usize,
        answer: *mut u64,
        answer_length: usize,
    ) -> u8;

    fn sulyterom_read_core(
        text: *const u8,
        text_length: usize,
        core: *mut u32,
        core_length: usize,
        declarations: *mut u32,
        declarations_length: usize,
        work: *mut u32,
        work_length: usize,
        answer: *mut u64,
        answer_length: usize,
    ) -> u8;

    fn sulyterom_read_canonical(
        text: *const u8,
        text_length: usize,
        core: *mut u32,
        core_length: usize,
        declarations: *mut u32,
        declarations_length: usize,
        work: *mut u32,
        work_length: usize,
        answer: *mut u64,
        answer_length: usize,
    ) -> u8;

    fn sulyterom_token(
        source: *const u8,
        source_length: usize,
        at: usize,
        answer: *mut u64,
        answer_length: usize,
    ) -> u8;

    fn sulyterom_head(source: *const u8, source_length: usize, answer: *mut u64, answer_length: usize) -> u8;

    fn sulyterom_storage(
        source: *const u8,
        source_length: usize,
        work: *mut u32,
        work_length: usize,
        answer: *mut u64,
        answer_length: usize,
    ) -> u8;
}

/// A class, 0 for an acceptance, a yes and a no; how many values follow, and the values.
pub type Told = (u8, [u64; 3]);

/// The class, 0 for acceptance; how many values follow, and the values.
pub fn load(source: &[u8], lent: Tables<&mut [u32]>, reader: Reader) -> Told {
    let load = match reader {
        Reader::Frames => sulyterom_load,
        Reader::Plain => sulyterom_load_plain,
    };
    let mut answer = [0; 3];
    // SAFETY: each pointer comes with its slice's length, and the slices borrowed mutably are apart from all others.
    let class = unsafe {
        load(
            source.as_ptr(),
            source.len(),
            lent.surface.as_mut_ptr(),
            lent.surface.len(),
            lent.core.as_mut_ptr(),
            lent.core.len(),
            lent.declarations.as_mut_ptr(),
            lent.declarations.len(),
            lent.work.as_mut_ptr(),
            lent.work.len(),
            answer.as_mut_ptr(),
            answer.len(),
        )
    };
    (class, answer)
}

/// The class, 0 for yes and no; 1 and a row for a yes, 0 for a no.
pub fn depends(source: &[u8], i: usize, j: usize, lent: Tables<&mut [u32]>) -> Told {
    let mut answer = [0; 3];
    // SAFETY: as above; any numbers may be asked of.
    let class = unsafe {
        sulyterom_depends(
            source.as_ptr(),
            source.len(),
            i,
            j,
            lent.surface.as_mut_ptr(),
            lent.surface.len(),
            lent.core.as_mut_ptr(),
            lent.core.len(),
            lent.declarations.as_mut_ptr(),
            lent.declarations.len(),
            lent.work.as_mut_ptr(),
            lent.work.len(),
            answer.as_mut_ptr(),
            answer.len(),
        )
    };
    (class, answer)
}

/// The class, 0 for a reference; 2, the count and a row where a form binds it, 1 and a place for a declaration.
pub fn binder(source: &[u8], row: usize, lent: Tables<&mut [u32]>) -> Told {
    let mut answer = [0; 3];
    // SAFETY: as above; any number may be asked of.
    let class = unsafe {
        sulyterom_binder(
            source.as_ptr(),
            source.len(),
            row,
            lent.surface.as_mut_ptr(),
            lent.surface.len(),
            lent.core.as_mut_ptr(),
            lent.core.len(),
            lent.declarations.as_mut_ptr(),
            lent.declarations.len(),
            lent.work.as_mut_ptr(),
            lent.work.len(),
            answer.as_mut_ptr(),
            answer.len(),
        )
    };
    (class, answer)
}

/// The class, 0 for yes and no; 0 for a yes, 1 and a place for a no. The work area is that of `one`.
pub fn same(first: &[u8], second: &[u8], one: Tables<&mut [u32]>, other: Tables<&mut [u32]>) -> Told {
    let mut answer = [0; 3];
    // SAFETY: as above, for both sets.
    let class = unsafe {
        sulyterom_same(
            first.as_ptr(),
            first.len(),
            second.as_ptr(),
            second.len(),
            one.surface.as_mut_ptr(),
            one.surface.len(),
            one.core.as_mut_ptr(),
            one.core.len(),
            one.declarations.as_mut_ptr(),
            one.declarations.len(),
            other.surface.as_mut_ptr(),
            other.surface.len(),
            other.core.as_mut_ptr(),
            other.core.len(),
            other.declarations.as_mut_ptr(),
            other.declarations.len(),
            one.work.as_mut_ptr(),
            one.work.len(),
            answer.as_mut_ptr(),
            answer.len(),
        )
    };
    (class, answer)
}

/// The class, 0 for acceptance; how many values follow, and the values: those of loading, and then the text's length, one
/// more than there is room for if it was cut.
pub fn list(source: &[u8], lent: Tables<&mut [u32]>, reader: Reader, text: &mut [u8]) -> (u8, [u64; 4]) {
    let list = match reader {
        Reader::Frames => sulyterom_list,
        Reader::Plain => sulyterom_list_plain,
    };
    let mut answer = [0; 4];
    // SAFETY: as above; the text is borrowed mutably too.
    let class = unsafe {
        list(
            source.as_ptr(),
            source.len(),
            lent.surface.as_mut_ptr(),
            lent.surface.len(),
            lent.core.as_mut_ptr(),
            lent.core.len(),
            lent.declarations.as_mut_ptr(),
            lent.declarations.len(),
            lent.work.as_mut_ptr(),
            lent.work.len(),
            text.as_mut_ptr(),
            text.len(),
            answer.as_mut_ptr(),
            answer.len(),
        )
    };
    (class, answer)
}

/// The class, 0 for acceptance; how many values follow, and the values: the length of the text, which is 0 behind it and
/// after a refusal.
pub fn print(source: &[u8], lent: Tables<&mut [u32]>, text: &mut [u8]) -> Told {
    let mut answer = [0; 3];
    // SAFETY: as above; the text is borrowed mutably too.
    let class = unsafe {
        sulyterom_print(
            source.as_ptr(),
            source.len(),
            lent.surface.as_mut_ptr(),
            lent.surface.len(),
            lent.core.as_mut_ptr(),
            lent.core.len(),
            lent.declarations.as_mut_ptr(),
            lent.declarations.len(),
            lent.work.as_mut_ptr(),
            lent.work.len(),
            text.as_mut_ptr(),
            text.len(),
            answer.as_mut_ptr(),
            answer.len(),
        )
    };
    (class, answer)
}

/// The class, 0 for acceptance; how many values follow, and the values: rows and declarations. No surface rows are lent.
pub fn read_core(text: &[u8], lent: Tables<&mut [u32]>) -> Told {
    let mut answer = [0; 3];
    // SAFETY: as above.
    let class = unsafe {
        sulyterom_read_core(
            text.as_ptr(),
            text.len(),
            lent.core.as_mut_ptr(),
            lent.core.len(),
            lent.declarations.as_mut_ptr(),
            lent.declarations.len(),
            lent.work.as_mut_ptr(),
            lent.work.len(),
            answer.as_mut_ptr(),
            answer.len(),
        )
    };
    (class, answer)
}

/// The same of a text that must be its own print.
pub fn read_canonical(text: &[u8], lent: Tables<&mut [u32]>) -> Told {
    let mut answer = [0; 3];
    // SAFETY: as above.
    let class = unsafe {
        sulyterom_read_canonical(
            text.as_ptr(),
            text.len(),
            lent.core.as_mut_ptr(),
            lent.core.len(),
            lent.declarations.as_mut_ptr(),
            lent.declarations.len(),
            lent.work.as_mut_ptr(),
            lent.work.len(),
            answer.as_mut_ptr(),
            answer.len(),
        )
    };
    (class, answer)
}

/// The class, 0 for a token; how many values follow, and the values: kind, start and end, or the refused byte's offset.
pub fn token(source: &[u8], at: usize) -> (u8, [u64; 4]) {
    let mut answer = [0; 4];
    // SAFETY: as above; any offset may be asked of.
    let class = unsafe { sulyterom_token(source.as_ptr(), source.len(), at, answer.as_mut_ptr(), answer.len()) };
    (class, answer)
}

/// The class, 0 for a name; how many values follow, and the values: the name's start and length.
pub fn head(source: &[u8]) -> Told {
    let mut answer = [0; 3];
    // SAFETY: as above.
    let class = unsafe { sulyterom_head(source.as_ptr(), source.len(), answer.as_mut_ptr(), answer.len()) };
    (class, answer)
}

/// The class, 0 for an answer; how many values follow, and the values: rows, declarations and frames.
pub fn storage(source: &[u8], work: &mut [u32]) -> (u8, [u64; 4]) {
    let mut answer = [0; 4];
    // SAFETY: as above; the work area is borrowed mutably too.
    let class = unsafe {
        sulyterom_storage(
            source.as_ptr(),
            source.len(),
            work.as_mut_ptr(),
            work.len(),
            answer.as_mut_ptr(),
            answer.len(),
        )
    };
    (class, answer)
}
