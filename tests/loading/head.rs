//! The module's name from the head of a source against loading: every beginning of the source is given to the Rust, and the
//! name is that in the shortest one which is accepted. Where there is none, the refusal is document 01's of the whole source.
use super::check::answer_numbers;
use super::edges;
use super::expected::Reference;
use super::generated::{module, printed};
use super::heads;
use super::short::{Bytes, Tokens, by_bytes, by_tokens};
use super::sizes::exact;
use super::station;
use common::damage::damaged;
use common::lists;
use common::prng::Prng;
use common::refusal::Refusal;
use common::tally::{Mismatch, Tally, differ};
use common::unicode::MARK;
use common::vocabulary::{Edition, HEAD, HEAD_0_2};
use std::process::ExitCode;

pub const COUNT: usize = 20_000;
/// With fewer sources some answers need not come.
const ENOUGH: usize = 400;
/// Of a source with so many bytes every beginning is given to the Rust.
const SHORT: usize = 400;
/// Of a longer one those that end behind one of so many closing parentheses; no source here has as many before its head's.
const PARENTHESES: usize = 100;
/// "6 source over 65,535 bytes"
const LONGEST: usize = 65_535;
/// So much of a source answers for all of it.
const ENOUGH_BYTES: usize = 65_536;

pub fn run(count: usize, seed: u64) -> ExitCode {
    let mut comparison = Comparison { prng: Prng::new(seed), tally: Tally::default(), seen: Seen::default() };
    comparison.written_out();
    comparison.list();
    for at in 0..count {
        comparison.random(at);
        if comparison.tally.is_hopeless() {
            return comparison.tally.finish();
        }
    }
    comparison.every_byte();
    comparison.all_short(count);
    comparison.finish(count >= ENOUGH)
}

/// The name's first byte and length.
type Name = [usize; 2];

/// What document 02 says of a source.
fn expected(source: &[u8]) -> Result<Name, Refusal> {
    match ends(source).into_iter().find(|end| is_accepted(&source[..*end])) {
        Some(end) => Ok(name(&source[..end])),
        None => {
            let reference = Reference::new(source);
            let whole = reference.expected(exact(reference.need())).map(|_| ());
            Err(whole.expect_err("a source is a beginning of itself"))
        }
    }
}

/// The lengths of the beginnings that are tried, in their order.
fn ends(source: &[u8]) -> Vec<usize> {
    if source.len() <= SHORT {
        return (0..=source.len()).collect();
    }
    let behind = |(at, byte): (usize, &u8)| (*byte == b')').then_some(at + 1);
    source.iter().enumerate().filter_map(behind).take(PARENTHESES).collect()
}

/// Whether document 01 accepts it, with as much storage as it needs.
fn is_accepted(beginning: &[u8]) -> bool {
    // most are refused by the Rust, which is told soon
    if answers::read(beginning).is_err() {
        return false;
    }
    let reference = Reference::new(beginning);
    reference.expected(exact(reference.need())).is_ok()
}

/// The eighth token of an accepted source, which the Rust has as the module's name.
fn name(accepted: &[u8]) -> Name {
    let text = std::str::from_utf8(accepted).expect("an accepted source is UTF-8");
    let mut end = 0;
    for _ in 0..8 {
        end = answers::token_at(text, end).end;
    }
    let module = answers::read(accepted).expect("it is accepted");
    let length = module.name().len();
    assert!(text[..end].ends_with(module.name()), "the name that the Rust has read");
    [end - length, length]
}

/// An answer as the library tells it.
fn numbers(expected: Result<Name, Refusal>) -> (u8, [u64; 3]) {
    match expected {
        Ok([start, length]) => (0, [2, start as u64, length as u64]),
        Err(refusal) => answer_numbers(&Err(refusal)),
    }
}

struct Comparison {
    prng: Prng,
    tally: Tally,
    seen: Seen,
}

impl Comparison {
    /// Readings written out: a source, and the name's start and length or the refusal.
    fn written_out(&mut self) {
        for (source, told) in heads::readings() {
            let found = station::head(&source);
            let told = format!("{:?}", numbers(told));
            self.tally.count(&source, differ("answer", told, format!("{found:?}")));
            self.compare(&source);
        }
    }

    /// Every source of the list, and the name that loading reads in those that are accepted.
    fn list(&mut self) {
        match lists::read("tests/lists/answers.txt") {
            Ok(lines) => lines.iter().for_each(|line| self.compare(&line.source)),
            Err(error) => self.tally.broken(&error),
        }
    }

    fn random(&mut self, at: usize) {
        let source = match at % 8 {
            0 => {
                let module = module(&mut self.prng);
                printed(&module, &mut self.prng)
            }
            1 => {
                let module = module(&mut self.prng);
                damaged(&printed(&module, &mut self.prng), &mut self.prng)
            }
            2 => edges::source(&mut self.prng),
            3 if at % 64 == 3 => heads::long(&mut self.prng),
            3 => damaged(&heads::source(&mut self.prng), &mut self.prng),
            _ => heads::source(&mut self.prng),
        };
        self.compare(&source);
    }

    /// Every byte in every place of a head, before it and behind it, with a tail that is no module.
    fn every_byte(&mut self) {
        let heads = ["", " (postulate x nat)", "]\n"].map(|tail| format!("{HEAD}{tail}"));
        for head in heads.into_iter().chain([HEAD_0_2.replace(" m)", " arro)")]) {
            let head = head.into_bytes();
            for byte in 0..=u8::MAX {
                for at in 0..=head.len() {
                    self.compare(&[&head[..at], &[byte], &head[at..]].concat());
                    if at < head.len() {
                        self.compare(&[&head[..at], &[byte], &head[at + 1..]].concat());
                    }
                }
            }
        }
    }

    fn all_short(&mut self, count: usize) {
        const WORDS: [&str; 12] =
            ["(", ")", "surface", "module", "0", "1", "2", "x", "nat", "arrow", "a-b", "postulate"];
        let heads = Edition::BOTH.map(|edition| format!("(surface {})", edition.version().join(" ")));
        let starts = [&[String::new(), HEAD.to_string()], &heads[..]].concat();
        let length = by_tokens(Tokens { starts, words: &WORDS }, count, |source| {
            self.compare(source);
            Reference::new(source).is_open()
        });
        println!("all sources of up to {length} tokens behind each of four beginnings");
        const BYTES: &[u8] = b"() ;\n\r\x0ba0-_]\x00\xc3\xa9\xff";
        let starts = ["", ";", "(surface 0 1)(module", "(surface 0 2)(module m", HEAD].map(str::to_string).to_vec();
        let longest = if count < 10_000 { 2 } else { 3 };
        by_bytes(Bytes { starts, bytes: BYTES }, longest, |source| self.compare(source));
        println!("all strings of up to {longest} of 16 bytes behind each of five beginnings");
    }

    fn compare(&mut self, source: &[u8]) {
        let expected = expected(source);
        self.seen.answer(source, expected);
        let mismatch = self.differs(source, expected);
        self.tally.count(source, mismatch);
    }

    fn differs(&mut self, source: &[u8], expected: Result<Name, Refusal>) -> Option<Mismatch> {
        let told = format!("{:?}", numbers(expected));
        let found = |source: &[u8]| format!("{:?}", station::head(source));
        let mismatch = differ("answer", told.clone(), found(source)).or_else(|| self.as_loaded(source, expected));
        let Ok([start, length]) = expected else {
            let enough = &source[..source.len().min(ENOUGH_BYTES)];
            return mismatch.or_else(|| differ("answer to the first bytes", told, found(enough)));
        };
        // nothing behind the head is looked at: it is cut off, and others follow it
        let end = source[start + length..].iter().position(|byte| *byte == b')').map(|at| start + length + at + 1);
        let end = end.filter(|end| is_accepted(&source[..*end]));
        mismatch.or_else(|| {
            let head = &source[..end?];
            let tails = [Vec::new(), heads::tail(&mut self.prng)].map(|tail| [head, &tail].concat());
            tails.iter().find_map(|other| differ("answer to another tail", told.clone(), found(other)))
        })
    }

    /// "For every file that loads, the name equals the one that loading reads."
    fn as_loaded(&self, source: &[u8], expected: Result<Name, Refusal>) -> Option<Mismatch> {
        let read = answers::read(source).ok().filter(|_| is_accepted(source))?;
        let told = expected.map(|[start, length]| String::from_utf8_lossy(&source[start..start + length]).into_owned());
        differ("name", read.name().to_string(), told.unwrap_or_default())
    }

    fn finish(mut self, enough: bool) -> ExitCode {
        println!("{:?}", self.seen);
        if enough && !self.seen.all() {
            self.tally.broken("some answer never came");
        }
        self.tally.finish()
    }
}

/// How often each sort of answer was expected.
#[derive(Debug, Default)]
struct Seen {
    loading: usize,
    named_but_long: usize,
    named_but_broken: usize,
    named_but_refused: usize,
    named_to_the_last_byte: usize,
    refused_by_class: [usize; 6],
    refused_as_broken: usize,
    refused_for_the_mark: usize,
    long_by_a_byte: usize,
}

impl Seen {
    fn answer(&mut self, source: &[u8], expected: Result<Name, Refusal>) {
        let (long, broken) = (source.len() > LONGEST, std::str::from_utf8(source).is_err());
        let counts = match expected {
            Ok(_) if long => &mut self.named_but_long,
            Ok(_) if broken => &mut self.named_but_broken,
            Ok(_) if source.len() == LONGEST && source.ends_with(b")") => &mut self.named_to_the_last_byte,
            Ok(_) if is_accepted(source) => &mut self.loading,
            Ok(_) => &mut self.named_but_refused,
            Err(_) if source.len() == LONGEST + 1 && source.ends_with(b")") => &mut self.long_by_a_byte,
            Err(_) if !long && broken => &mut self.refused_as_broken,
            Err(_) if !long && source.starts_with(MARK) => &mut self.refused_for_the_mark,
            Err(refusal) => &mut self.refused_by_class[usize::from(refusal.class) - 1],
        };
        *counts += 1;
    }

    /// 1, 2, 3 and 6 must have come, and no other class.
    fn all(&self) -> bool {
        let named = [self.loading, self.named_but_long, self.named_but_broken, self.named_but_refused];
        let refused = [self.refused_as_broken, self.refused_for_the_mark, self.long_by_a_byte];
        let [one, two, three, four, five, six] = self.refused_by_class;
        let rest = [one, two, three, six, self.named_to_the_last_byte];
        !named.iter().chain(&refused).chain(&rest).any(|count| *count == 0) && (four, five) == (0, 0)
    }
}
