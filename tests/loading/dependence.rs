//! The dependence question against a search from each declaration, on what the Rust says that loading leaves: all pairs of
//! places, at and past the count too. Yes or no, the row that is shown, and every word of the tables.
use super::chained::{chained, long};
use super::check::{answer_numbers, compare_tables};
use super::dependences::{Dependences, TRAITS};
use super::expected::{Content, Reference};
use super::generated::{module, printed};
use super::sizes::{enough, random};
use super::station::{Loaded, depends};
use super::tables::{Rubbish, Sizes};
use common::damage::damaged;
use common::modules::{Shape, generate};
use common::printing::{Layout, print};
use common::prng::Prng;
use common::refusal::Refusal;
use common::tally::{Mismatch, Tally, differ};
use std::process::ExitCode;

/// So many sources are asked about.
pub const COUNT: usize = 2_000;
/// With fewer sources some answers need not come.
const ENOUGH: usize = 100;
/// Of a source with more declarations, so many random pairs are asked, squared.
const EVERY_PAIR: usize = 8;
/// So many declarations in tight layout have under 65,535 bytes.
const LONG: usize = 900;

pub fn run(count: usize, seed: u64) -> ExitCode {
    let mut comparison = Comparison {
        prng: Prng::new(seed),
        tally: Tally::default(),
        answers: [0; 3],
        chained: 0,
        pairs: 0,
        traits: [0; TRAITS.len()],
    };
    for at in 0..count {
        match at % 8 {
            3 | 6 => comparison.chained(),
            _ if at % 256 == 97 => comparison.long(),
            _ => comparison.any(at),
        }
        if comparison.tally.is_hopeless() {
            break;
        }
    }
    comparison.finish(count >= ENOUGH)
}

struct Comparison {
    prng: Prng,
    tally: Tally,
    /// How often no, yes and a refusal came.
    answers: [usize; 3],
    /// Modules of which every pair was asked, their pairs, and how many of these have each of TRAITS.
    chained: usize,
    pairs: usize,
    traits: [usize; TRAITS.len()],
}

impl Comparison {
    /// Every pair of a module that is made for it, and one past the count, with tables that suffice.
    fn chained(&mut self) {
        let module = chained(&mut self.prng);
        let source = printed(&module, &mut self.prng);
        let asked = Asked::new(&source);
        let past = module.declarations.len() + 1;
        for pair in 0..past * past {
            let sizes = enough(asked.reference.need(), &mut self.prng);
            self.ask(&asked, [pair / past, pair % past], sizes);
        }
        self.some(&asked);
        let dependences = asked.dependences.as_ref().expect("the module is accepted");
        self.chained += 1;
        self.pairs += (past - 1) * (past - 1);
        self.traits.iter_mut().zip(dependences.traits()).for_each(|(count, more)| *count += more);
    }

    /// A module of so many declarations that chains of hundreds come; its ends, and some pairs.
    fn long(&mut self) {
        let module = long(LONG, &mut self.prng);
        let source = print(&module, Layout::Tight, &mut self.prng);
        let asked = Asked::new(&source);
        assert!(asked.dependences.is_some(), "the module is accepted");
        for j in [0, 1, LONG - 2, LONG - 1] {
            let sizes = enough(asked.reference.need(), &mut self.prng);
            self.ask(&asked, [LONG - 1, j], sizes);
        }
        self.some(&asked);
    }

    /// A module of any shape, damaged now and then.
    fn any(&mut self, at: usize) {
        let module = match at % 4 {
            0 => module(&mut self.prng),
            _ => generate(&mut self.prng, &Shape { declarations: 7, depth: 4, size: 6, ..Shape::accepted() }),
        };
        let source = printed(&module, &mut self.prng);
        let source = if at % 8 == 7 { damaged(&source, &mut self.prng) } else { source };
        self.some(&Asked::new(&source));
    }

    /// Every pair of few declarations or some of them, and places far beyond, now and then with tables of any sizes.
    fn some(&mut self, asked: &Asked) {
        for places in places(&asked.reference, &mut self.prng) {
            let (need, prng) = (asked.reference.need(), &mut self.prng);
            let sizes = if prng.chance(90) { enough(need, prng) } else { random(need, prng) };
            self.ask(asked, places, sizes);
        }
    }

    fn ask(&mut self, asked: &Asked, places: [usize; 2], sizes: Sizes) {
        if self.tally.is_hopeless() {
            return;
        }
        let rubbish = *self.prng.pick(&Rubbish::ALL);
        let loaded = depends(asked.reference.source, places, sizes, rubbish);
        let answer = match loaded.class {
            0 => usize::from(loaded.answer[0] == 1),
            _ => 2,
        };
        self.answers[answer] += 1;
        self.tally.count(asked.reference.source, check(asked, places, sizes, &loaded));
    }

    fn finish(mut self, enough: bool) -> ExitCode {
        let [no, yes, refused] = self.answers;
        println!("no {no}, yes {yes}, refused {refused}");
        let told: Vec<String> =
            TRAITS.iter().zip(self.traits).map(|(name, count)| format!("{name}: {count}")).collect();
        println!("of the {} pairs of {} chained modules: {}", self.pairs, self.chained, told.join("; "));
        if enough && (self.answers.contains(&0) || self.traits.contains(&0)) {
            self.tally.broken("some answer never came");
        }
        self.tally.finish()
    }
}

/// A source with what is to be answered of it, if it is accepted.
struct Asked<'a> {
    reference: Reference<'a>,
    dependences: Option<Dependences>,
}

impl<'a> Asked<'a> {
    fn new(source: &'a [u8]) -> Self {
        let reference = Reference::new(source);
        let dependences = reference.accepted().map(Dependences::new);
        Self { reference, dependences }
    }
}

/// Every pair up to one past the count, or some of them, and places far beyond.
fn places(reference: &Reference, prng: &mut Prng) -> Vec<[usize; 2]> {
    let past = reference.need().declarations + 1;
    let mut places: Vec<[usize; 2]> = if past <= EVERY_PAIR {
        (0..past * past).map(|pair| [pair / past, pair % past]).collect()
    } else {
        (0..EVERY_PAIR * EVERY_PAIR).map(|_| [prng.below(past), prng.below(past)]).collect()
    };
    places.extend([[0, usize::MAX], [usize::MAX, 0], [0, 1 << 32], [1 << 32, 0], [usize::MAX, usize::MAX]]);
    places
}

fn check(asked: &Asked, places: [usize; 2], sizes: Sizes, loaded: &Loaded) -> Option<Mismatch> {
    let expected = asked.reference.expected(sizes).and_then(|content| {
        let known = places.iter().all(|place| *place < content.records());
        if known { Ok(content) } else { Err(Refusal::nowhere(12)) }
    });
    let mismatch = match (expected, &asked.dependences) {
        (Ok(content), Some(dependences)) => {
            compare_answer(dependences, places, loaded).or_else(|| compare_tables(content, loaded))
        }
        (Ok(_), None) => unreachable!("an accepted source has its dependences"),
        (Err(refusal), _) => {
            let found = (loaded.class, loaded.answer);
            let answer = differ("answer", format!("{:?}", answer_numbers(&Err(refusal))), format!("{found:?}"));
            answer.or_else(|| compare_tables(&Content::default(), loaded))
        }
    };
    mismatch.map(|mismatch| Mismatch { what: format!("{} for {places:?} with {sizes:?}", mismatch.what), ..mismatch })
}

/// "A yes shall show the lowest-numbered row that qualifies": no other will do.
fn compare_answer(dependences: &Dependences, [i, j]: [usize; 2], loaded: &Loaded) -> Option<Mismatch> {
    let answer = dependences.row(i, j).map_or([0, 0, 0], |row| [1, row as u64, 0]);
    differ("dependence", format!("{:?}", (0, answer)), format!("{:?}", (loaded.class, loaded.answer)))
}
