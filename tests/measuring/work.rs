//! One turn of reading or loading, by us or by the Rust.
use crate::case::{Case, Task};
use hott_kernel::surface::{elaborate_surface, parse_surface};
use std::hint::black_box;
use sulyterom::{LONGEST_SOURCE, Loader, Reader, Tables, load, load_by};

// A slice passes as a pointer and then a length.
#[link(name = "sulyterom", kind = "static")]
unsafe extern "C" {
    fn sulyterom_parse(
        source: *const u8,
        source_length: usize,
        surface: *mut u32,
        surface_length: usize,
        declarations: *mut u32,
        declarations_length: usize,
        work: *mut u32,
        work_length: usize,
        answer: *mut u64,
        answer_length: usize,
    ) -> u8;

    fn sulyterom_parse_plain(
        source: *const u8,
        source_length: usize,
        surface: *mut u32,
        surface_length: usize,
        declarations: *mut u32,
        declarations_length: usize,
        work: *mut u32,
        work_length: usize,
        answer: *mut u64,
        answer_length: usize,
    ) -> u8;
}

/// Who works, and for us with which tables.
#[derive(Clone, Copy, Debug, PartialEq)]
pub enum Who {
    /// Lent again in every turn with what the turn before left; no row or record to spare.
    Lent,
    /// The same tables, by the plain reader. All others of ours are by the frame reader.
    Plain,
    /// Allocated and freed in every turn, as any source of that length may need them.
    Fresh,
    /// Lent again, as any source may need them; what is to spare is cleared in every turn.
    Longest,
    /// Kept from turn to turn by the Rust crate's `Loader`.
    Kept,
    /// The Rust allocates and frees its own in every turn.
    Rust,
}

/// Who has the task: the crate's `Loader` does not only read.
pub fn whos(task: Task) -> &'static [Who] {
    match task {
        Task::Read => &[Who::Lent, Who::Plain, Who::Fresh, Who::Longest, Who::Rust],
        Task::Load => &[Who::Lent, Who::Plain, Who::Fresh, Who::Longest, Who::Kept, Who::Rust],
    }
}

/// A case with the tables that are lent or kept for it.
pub struct Work<'a> {
    case: &'a Case,
    lent: Tables,
    longest: Tables,
    loader: Loader,
}

impl<'a> Work<'a> {
    pub fn new(case: &'a Case) -> Self {
        let mut lent = Tables::with_sizes(case.rows, case.declarations);
        let refusal = load(&case.text, &mut lent).err();
        assert_eq!(refusal.map(|refusal| refusal.class), case.refusal(), "class of {}", case.kind.name);
        Self { case, lent, longest: Tables::for_bytes(LONGEST_SOURCE), loader: Loader::new() }
    }

    pub fn turn(&mut self, who: Who) {
        let (task, text) = (self.case.task, &self.case.text);
        let rows = match who {
            Who::Lent => by_us(task, text, &mut self.lent, Reader::Frames),
            Who::Plain => by_us(task, text, &mut self.lent, Reader::Plain),
            Who::Fresh => by_us(task, text, &mut Tables::for_bytes(text.len()), Reader::Frames),
            Who::Longest => by_us(task, text, &mut self.longest, Reader::Frames),
            Who::Kept => self.loader.load(black_box(text)).map_or(0, |loaded| loaded.row_count()),
            Who::Rust => by_rust(task, text),
        };
        assert_eq!(black_box(rows), self.case.answer(), "rows of {}, {who:?}", self.case.kind.name);
    }
}

/// How many rows there are, or 0 for a refusal.
fn by_us(task: Task, text: &[u8], tables: &mut Tables, reader: Reader) -> usize {
    match task {
        Task::Read => read(black_box(text), tables, reader),
        Task::Load => load_by(black_box(text), tables, reader).map_or(0, |loaded| loaded.row_count()),
    }
}

fn by_rust(task: Task, text: &[u8]) -> usize {
    let Ok(read) = parse_surface(black_box(text)) else { return 0 };
    match task {
        Task::Read => read.arena().len(),
        Task::Load => elaborate_surface(&read).map_or(0, |module| module.arena().len()),
    }
}

fn read(source: &[u8], tables: &mut Tables, reader: Reader) -> usize {
    let parse = match reader {
        Reader::Frames => sulyterom_parse,
        Reader::Plain => sulyterom_parse_plain,
    };
    let [surface, _, declarations, work] = tables.lend().into_words();
    // how many values follow, the rows and the declarations; or an offset
    let mut answer = [0; 3];
    // SAFETY: each pointer comes with its slice's length.
    let class = unsafe {
        parse(
            source.as_ptr(),
            source.len(),
            surface.as_mut_ptr(),
            surface.len(),
            declarations.as_mut_ptr(),
            declarations.len(),
            work.as_mut_ptr(),
            work.len(),
            answer.as_mut_ptr(),
            answer.len(),
        )
    };
    if class == 0 { answer[1] as usize } else { 0 }
}
