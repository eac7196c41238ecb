//! Compares loading with document 01 and the Rust at scale: short sources all of them, random and damaged modules, all
//! beginnings of some, and pairs of modules that agree or nearly agree.
use super::agreement::{agree, same_core};
use super::check::loaded;
use super::edges;
use super::expected::Reference;
use super::generated::{module, printed, small};
use super::short::{self, by_bytes, by_tokens};
use super::sizes::{enough, random};
use super::station::Loaded;
use super::tables::{Rubbish, Sizes};
use common::alter::alter;
use common::damage::damaged;
use common::modules::{Module, Shape, generate};
use common::prng::Prng;
use common::renaming::rename_binders;
use common::tally::{Tally, differ};
use std::process::ExitCode;

pub const COUNT: usize = 30_000;
/// With fewer sources some answers need not come.
const ENOUGH: usize = 2_000;

pub fn run(count: usize, seed: u64) -> ExitCode {
    let mut comparison = Comparison::new(seed);
    for at in 0..count {
        comparison.random(at);
        if comparison.tally.is_hopeless() {
            break;
        }
    }
    let length = by_tokens(short::tokens(), count, |source| comparison.compare(source));
    println!("all sources of up to {length} tokens behind each of six beginnings");
    let longest = if count < 100_000 { 2 } else { 4 };
    by_bytes(short::bytes(), longest, |source| {
        comparison.compare(source);
    });
    println!("all strings of up to {longest} of 16 bytes behind each of five beginnings");
    comparison.finish(count >= ENOUGH)
}

struct Comparison {
    prng: Prng,
    tally: Tally,
    /// How often each class came, and acceptance as 0; and so for sources whose head is 0 2.
    classes: [usize; 12],
    second: [usize; 12],
    /// How many pairs of accepted modules agree, and how many do not; and so for pairs of both editions.
    pairs: [usize; 2],
    across: [usize; 2],
}

impl Comparison {
    fn new(seed: u64) -> Self {
        let (prng, tally) = (Prng::new(seed), Tally::default());
        Self { prng, tally, classes: [0; 12], second: [0; 12], pairs: [0; 2], across: [0; 2] }
    }

    fn random(&mut self, at: usize) {
        match at % 8 {
            0 | 1 => {
                let module = module(&mut self.prng);
                let source = printed(&module, &mut self.prng);
                self.compare(&source);
            }
            2 => {
                let module = module(&mut self.prng);
                let source = printed(&module, &mut self.prng);
                let source = damaged(&source, &mut self.prng);
                self.compare(&source);
            }
            3 | 4 => {
                let source = edges::source(&mut self.prng);
                self.compare(&source);
            }
            5 if at % 400 == 5 => self.beginnings(),
            5 | 6 => self.renamed(),
            _ => {
                let pair = [small(&mut self.prng), small(&mut self.prng)];
                self.pair(&pair[0], &pair[1]);
            }
        }
    }

    /// Compares one source with sizes that suffice and with any. Gives whether reading gets to its end.
    fn compare(&mut self, source: &[u8]) -> bool {
        if self.tally.is_hopeless() {
            return false;
        }
        let reference = Reference::new(source);
        let sizes = enough(reference.need(), &mut self.prng);
        self.load(&reference, sizes);
        for _ in 0..2 {
            let sizes = random(reference.need(), &mut self.prng);
            self.load(&reference, sizes);
        }
        reference.is_open()
    }

    /// What a call leaves if it is right.
    fn load(&mut self, reference: &Reference, sizes: Sizes) -> Option<Loaded> {
        let rubbish = *self.prng.pick(&Rubbish::ALL);
        let loaded = loaded(reference, sizes, rubbish, &mut self.tally)?;
        self.classes[usize::from(loaded.class)] += 1;
        self.second[usize::from(loaded.class)] += usize::from(answers::is_second(reference.source));
        Some(loaded)
    }

    fn beginnings(&mut self) {
        let module = generate(&mut self.prng, &Shape::doubtful());
        let source = printed(&module, &mut self.prng);
        for end in 0..=source.len() {
            self.compare(&source[..end]);
        }
    }

    /// A module, the same with other binders, layout and comments, and one with a change.
    fn renamed(&mut self) {
        let shape = Shape { depth: 6, size: 12, names: 3, ..Shape::accepted() };
        let module = generate(&mut self.prng, &shape);
        let renamed = rename_binders(&module, &mut self.prng);
        let mut altered = renamed.clone();
        alter(&mut altered, &mut self.prng);
        self.pair(&module, &renamed);
        self.pair(&module, &altered);
    }

    fn pair(&mut self, left: &Module, right: &Module) {
        let sources = [printed(left, &mut self.prng), printed(right, &mut self.prng)];
        let accepted = sources.each_ref().map(|source| {
            let reference = Reference::new(source);
            let sizes = enough(reference.need(), &mut self.prng);
            self.load(&reference, sizes).filter(|loaded| loaded.class == 0)
        });
        if let [Some(first), Some(second)] = &accepted {
            let agreed = agree(left, right);
            self.pairs[usize::from(!agreed)] += 1;
            self.across[usize::from(!agreed)] += usize::from(left.edition != right.edition);
            let same = same_core((&sources[0], first), (&sources[1], second));
            let both = [&sources[0][..], b"\n", &sources[1]].concat();
            self.tally.count(&both, differ("same core of a pair", agreed, same));
        }
    }

    /// Every class but 12 must have come, of sources whose head is 0 2 every one but 2 besides, and pairs of all sorts.
    fn finish(mut self, enough: bool) -> ExitCode {
        let Self { classes, second, pairs, across, .. } = self;
        println!("accepted {}, refused by class from 1 {:?}", classes[0], &classes[1..]);
        println!("of these with the head 0 2: accepted {}, refused {:?}", second[0], &second[1..]);
        println!(
            "pairs that agree {}, that do not {}; of both editions {} and {}",
            pairs[0], pairs[1], across[0], across[1]
        );
        let missing = (0..second.len()).any(|class| (second[class] == 0) != (class == 2));
        if enough && (classes.contains(&0) || missing || pairs.contains(&0) || across.contains(&0)) {
            self.tally.broken("some answer never came");
        }
        self.tally.finish()
    }
}
