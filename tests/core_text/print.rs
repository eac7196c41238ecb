//! Compares printing with document 02 and the Rust at scale, and reads what was printed: that must be the same core.
use super::check::{Source, printed, read_out};
use super::expected::Reference;
use super::station::{Printed, Reader};
use crate::loading::edges;
use crate::loading::generated::{deep, module, printed as written, small};
use crate::loading::order::Limits;
use crate::loading::sizes::{around, enough, random};
use crate::loading::station::Loaded;
use crate::loading::tables::{OFFSET, RECORD, ROW, Rubbish, Sizes};
use common::damage::damaged;
use common::modules::{Shape, generate};
use common::prng::Prng;
use common::tally::{Tally, differ};
use std::process::ExitCode;

pub const COUNT: usize = 12_500;
/// With fewer sources some answers need not come.
const ENOUGH: usize = 2_000;

pub fn run(count: usize, seed: u64) -> ExitCode {
    let mut comparison = Comparison { prng: Prng::new(seed), tally: Tally::default(), classes: [0; 15], again: 0 };
    for at in 0..count {
        let source = source(at, &mut comparison.prng);
        comparison.compare(&Source::new(&source), at % 64 == 0);
        if comparison.tally.is_hopeless() {
            break;
        }
    }
    comparison.finish(count >= ENOUGH)
}

fn source(at: usize, prng: &mut Prng) -> Vec<u8> {
    match at % 8 {
        0..=2 => written(&module(prng), prng),
        3 => damaged(&written(&module(prng), prng), prng),
        4 => edges::source(prng),
        5 if at % 40 == 5 => written(&deep(prng), prng),
        5 => written(&generate(prng, &Shape::doubtful()), prng),
        6 => written(&small(prng), prng),
        _ => {
            // many binders and declarations, so that counts and places have two digits
            let shape = Shape { declarations: 14, depth: 24, size: 24, ..Shape::accepted() };
            written(&generate(prng, &shape), prng)
        }
    }
}

struct Comparison {
    prng: Prng,
    tally: Tally,
    /// How often each class came, and acceptance as 0.
    classes: [usize; 15],
    /// How many printed texts were read again.
    again: usize,
}

impl Comparison {
    /// Prints with sizes that suffice and with any, into buffers around what the text needs; the text is read again.
    fn compare(&mut self, source: &Source, all_sizes: bool) {
        let need = source.loading.need();
        let length = source.text.as_ref().map_or(100, Vec::len);
        let sizes = enough(need, &mut self.prng);
        let buffer = length + *self.prng.pick(&[0, 0, 1, 2, 64, 1_000]);
        if let Some(printed) = self.print(source, sizes, buffer).filter(|printed| printed.loaded.class == 0) {
            self.read_again(source, &printed, need);
        }
        let sizes = enough(need, &mut self.prng);
        let shorter = *self.prng.pick(&[length - 1, length - 1, length / 2, 0, 64]);
        self.print(source, sizes, shorter);
        let sizes = random(need, &mut self.prng);
        let any = *self.prng.pick(&[length, length, length, length + 1, length - 1, 0, 2 * length]);
        self.print(source, sizes, any);
        if all_sizes {
            self.all_sizes(source, need, length);
        }
    }

    fn all_sizes(&mut self, source: &Source, need: Limits, length: usize) {
        for sizes in around(need) {
            for buffer in [length - 1, length] {
                self.print(source, sizes, buffer);
            }
        }
        for buffer in [0, 1, 7, 8, 64, 65, length - 2, length + 1, length + 7, length + 65_536] {
            let sizes = enough(need, &mut self.prng);
            self.print(source, sizes, buffer);
        }
    }

    /// What a call leaves if it is right.
    fn print(&mut self, source: &Source, sizes: Sizes, length: usize) -> Option<Printed> {
        let rubbish = *self.prng.pick(&Rubbish::ALL);
        let (left, mismatch) = match printed(source, sizes, length, rubbish) {
            Ok(left) => (Some(left), None),
            Err(mismatch) => (None, Some(mismatch)),
        };
        self.tally.count(source.loading.source, mismatch);
        if let Some(left) = &left {
            self.classes[usize::from(left.loaded.class)] += 1;
        }
        left
    }

    /// "reading what was printed for an accepted source yields the same core"
    fn read_again(&mut self, source: &Source, printed: &Printed, need: Limits) {
        let text = &printed.text[..printed.loaded.answer[1] as usize];
        let reference = Reference::new(text);
        let sizes = enough(need, &mut self.prng);
        for reader in Reader::BOTH {
            let mismatch = match read_out(&reference, reader, sizes, *self.prng.pick(&Rubbish::ALL)) {
                Ok(read) => {
                    let (left, right) = (core(source.loading.source, &printed.loaded), core_by_value(text, &read));
                    let told = |core: Core| format!("{core:?}");
                    if left == right { None } else { differ("core of the text", told(left), told(right)) }
                }
                Err(mismatch) => Some(mismatch),
            };
            self.tally.count(source.loading.source, mismatch);
        }
        self.again += 1;
    }

    /// Every class but 12 and 13 must have come.
    fn finish(mut self, enough: bool) -> ExitCode {
        let classes = self.classes;
        println!("accepted {}, refused by class from 1 {:?}", classes[0], &classes[1..]);
        println!("texts read again {}", self.again);
        let never = (0..classes.len()).any(|class| classes[class] == 0 && class != 12 && class != 13);
        if enough && (never || self.again == 0) {
            self.tally.broken("some answer never came");
        }
        self.tally.finish()
    }
}

/// What counts of a module: of each row the kind, the value or digits, and the children; of each declaration the kind,
/// the name, and the rows.
type Core<'a> = (Vec<(u32, String, &'a [u32])>, Vec<(u32, &'a [u8], &'a [u32])>);

/// The core that loading a source left.
fn core<'a>(source: &'a [u8], loaded: &'a Loaded) -> Core<'a> {
    module_core(source, loaded, |row| row[1].to_string())
}

/// The core that reading a text left, "a var or global read from text being compared by its numeral's value".
fn core_by_value<'a>(text: &'a [u8], read: &'a Loaded) -> Core<'a> {
    module_core(text, read, |row| {
        let digits = String::from_utf8_lossy(part(text, row)).into_owned();
        digits.parse::<u32>().map_or(digits, |value| value.to_string())
    })
}

fn module_core<'a>(bytes: &'a [u8], loaded: &'a Loaded, value: impl Fn(&[u32]) -> String) -> Core<'a> {
    let rows = loaded.tables.core.chunks_exact(ROW).map(|row| match row[0] {
        // var and global
        1 | 2 => (row[0], value(row), &[][..]),
        // universe
        3 => (row[0], String::from_utf8_lossy(part(bytes, row)).into_owned(), &[][..]),
        _ => (row[0], String::new(), &row[1..OFFSET]),
    });
    let records = loaded.tables.declarations.chunks_exact(RECORD);
    let records = records.map(|record| (record[0], part(bytes, record), &record[3..]));
    // unused ones are all 0
    (rows.filter(|row| row.0 != 0).collect(), records.filter(|record| record.0 != 0).collect())
}

/// The bytes whose start and length are the second and third word.
fn part<'a>(bytes: &'a [u8], words: &[u32]) -> &'a [u8] {
    &bytes[words[1] as usize..][..words[2] as usize]
}
