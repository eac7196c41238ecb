//! Compares both readers with document 02 and the Rust at scale: random and damaged texts, all beginnings of some,
//! every character in every place, and short texts all of them.
use super::check::read_out;
use super::expected::Reference;
use super::station::Reader;
use super::texts::{HEAD, text, written};
use super::{edges, strings};
use crate::loading::generated::{module, printed};
use crate::loading::short::{Bytes, Tokens, by_bytes, by_tokens};
use crate::loading::sizes::{around, enough, random};
use crate::loading::tables::{Rubbish, Sizes, Tables};
use common::damage::{damaged, damaged_text};
use common::modules::{Shape, generate};
use common::prng::Prng;
use common::tally::Tally;
use std::process::ExitCode;

pub const COUNT: usize = 25_000;
/// With fewer texts some answers need not come.
const ENOUGH: usize = 2_000;

pub fn run(count: usize, seed: u64) -> ExitCode {
    let mut comparison = Comparison { prng: Prng::new(seed), tally: Tally::default(), answers: [0; NAMES.len()] };
    for at in 0..count {
        comparison.random(at);
        if comparison.tally.is_hopeless() {
            break;
        }
    }
    strings::by_characters(|text| {
        comparison.compare(text);
    });
    let length = by_tokens(short_tokens(), count, |text| comparison.compare(text));
    println!("all texts of up to {length} tokens behind each of four beginnings");
    let longest = if count < 100_000 { 2 } else { 3 };
    by_bytes(short_bytes(), longest, |text| {
        comparison.compare(text);
    });
    println!("all strings of up to {longest} of 17 bytes behind each of five beginnings");
    comparison.finish(count >= ENOUGH)
}

struct Comparison {
    prng: Prng,
    tally: Tally,
    /// How often each answer came, in the order of `NAMES`.
    answers: [usize; NAMES.len()],
}

const NAMES: [&str; 9] =
    ["accepted", "accepted as canonical", "2", "7", "9", "10", "11", "13 with an offset", "13 without"];

impl Comparison {
    fn random(&mut self, at: usize) {
        let prng = &mut self.prng;
        let text = match at % 8 {
            0 | 1 => text(prng),
            2 => damaged(&text(prng), prng),
            3 => {
                let text = String::from_utf8(text(prng)).expect("a text is UTF-8");
                damaged_text(&text, prng).into_bytes()
            }
            4 | 5 => edges::text(prng),
            6 => match rust_print(prng) {
                Some(text) => text,
                None => return,
            },
            _ if at % 400 == 7 => return self.beginnings(),
            _ => {
                let shape = Shape { declarations: 3, depth: 3, size: 4, ..Shape::doubtful() };
                written(&generate(prng, &shape), prng)
            }
        };
        self.compare(&text);
        if at % 64 == 1 {
            self.all_sizes(&text);
        }
    }

    /// Compares one text with sizes that suffice, by both readers, and with any. Gives whether reading gets to its end.
    fn compare(&mut self, text: &[u8]) -> bool {
        if self.tally.is_hopeless() {
            return false;
        }
        let reference = Reference::new(text);
        for reader in Reader::BOTH {
            let sizes = enough(reference.need(), &mut self.prng);
            self.read(&reference, reader, sizes);
        }
        for _ in 0..2 {
            let sizes = random(reference.need(), &mut self.prng);
            let reader = *self.prng.pick(&Reader::BOTH);
            self.read(&reference, reader, sizes);
        }
        reference.is_open()
    }

    /// The sizes around what a text needs, each once.
    fn all_sizes(&mut self, text: &[u8]) {
        let reference = Reference::new(text);
        let mut all: Vec<Sizes> = around(reference.need()).into_iter().map(without_surface).collect();
        all.sort_unstable();
        all.dedup();
        for sizes in all {
            Reader::BOTH.into_iter().for_each(|reader| self.read(&reference, reader, sizes));
        }
    }

    fn read(&mut self, reference: &Reference, reader: Reader, sizes: Sizes) {
        let sizes = without_surface(sizes);
        let rubbish = *self.prng.pick(&Rubbish::ALL);
        match read_out(reference, reader, sizes, rubbish) {
            Ok(loaded) => {
                self.answers[place(reader, loaded.class, loaded.answer[0])] += 1;
                self.tally.count(reference.text, None);
            }
            Err(mismatch) => self.tally.count(reference.text, Some(mismatch)),
        }
    }

    fn beginnings(&mut self) {
        let module = generate(&mut self.prng, &Shape::accepted());
        let text = written(&module, &mut self.prng);
        for end in 0..=text.len() {
            self.compare(&text[..end]);
        }
    }

    fn finish(mut self, enough: bool) -> ExitCode {
        let told: Vec<String> =
            NAMES.iter().zip(self.answers).map(|(name, count)| format!("{name}: {count}")).collect();
        println!("{}", told.join(", "));
        if enough && self.answers.contains(&0) {
            self.tally.broken("some answer never came");
        }
        self.tally.finish()
    }
}

fn without_surface(sizes: Sizes) -> Sizes {
    Tables { surface: 0, ..sizes }
}

/// The place in NAMES of a reader's answer with so many values.
fn place(reader: Reader, class: u8, values: u64) -> usize {
    match class {
        0 => usize::from(reader == Reader::Canonical),
        2 => 2,
        7 => 3,
        9..=11 => usize::from(class) - 5,
        _ => 8 - usize::from(values == 1),
    }
}

/// What the Rust prints for some accepted source.
fn rust_print(prng: &mut Prng) -> Option<Vec<u8>> {
    let module = if prng.chance(50) { module(prng) } else { generate(prng, &Shape::accepted()) };
    let read = answers::read(&printed(&module, prng)).ok()?;
    Some(answers::print(&answers::resolve(&read).ok()?))
}

fn short_tokens() -> Tokens<'static> {
    const WORDS: [&str; 17] = [
        "(",
        ")",
        "hott-core",
        "format",
        "theory",
        "\"mltt-core\"",
        "declarations",
        "postulate",
        "opaque",
        "\"x\"",
        "pi",
        "lam",
        "var",
        "universe",
        "nat",
        "0",
        "1",
    ];
    let starts = vec![
        String::new(),
        HEAD.to_string(),
        format!("{HEAD} (postulate \"x\""),
        format!("{HEAD} (postulate \"x\" nat) (opaque \"y\" (pi nat (var 0))"),
    ];
    Tokens { starts, words: &WORDS }
}

fn short_bytes() -> Bytes<'static> {
    const BYTES: &[u8] = b"() \"\\;\n\r\x0ba0-\x00\x7f\xc2\x85\xa0";
    let starts = ["", " (postulate", " (postulate \"", " (postulate \"a\" nat", "))"];
    let starts = starts.map(|start| if start.is_empty() { String::new() } else { format!("{HEAD}{start}") });
    Bytes { starts: starts.to_vec(), bytes: BYTES }
}
