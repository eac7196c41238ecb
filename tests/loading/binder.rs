//! The question for a reference's binder against the definition of scope on the module's tree: every row, rows that are
//! none, refused sources and short tables. What it leaves must be what loading leaves with tables of the same sizes.
use super::bindings::{Binding, Bound, TRAITS, bindings};
use super::check::{answer_numbers, loaded};
use super::edges;
use super::expected::Reference;
use super::generated::{deep, module, printed};
use super::scoped::scoped;
use super::sizes::{enough, random};
use super::station::{Loaded, binder};
use super::tables::{ROW, Rubbish, Sizes};
use common::damage::damaged;
use common::modules::Module;
use common::prng::Prng;
use common::refusal::Refusal;
use common::tally::{Mismatch, Tally, differ};
use common::vocabulary::KINDS;
use std::process::ExitCode;

/// So many sources are asked about.
pub const COUNT: usize = 2_000;
/// With fewer sources some answers need not come.
const ENOUGH: usize = 100;
/// Of a source with more rows, so many random ones are asked of.
const EVERY_ROW: usize = 400;
/// With tables of any sizes, so many rows are asked of.
const SOME_ROWS: usize = 3;

pub fn run(count: usize, seed: u64) -> ExitCode {
    let mut comparison = Comparison { prng: Prng::new(seed), tally: Tally::default(), seen: Seen::default() };
    for at in 0..count {
        comparison.module(at);
        if comparison.tally.is_hopeless() {
            break;
        }
    }
    comparison.finish(count >= ENOUGH)
}

struct Comparison {
    prng: Prng,
    tally: Tally,
    seen: Seen,
}

impl Comparison {
    fn module(&mut self, at: usize) {
        let module = match at % 64 {
            40 => deep(&mut self.prng),
            41..=48 => module(&mut self.prng),
            _ => scoped(&mut self.prng),
        };
        let source = printed(&module, &mut self.prng);
        let source = match at % 16 {
            7 => damaged(&source, &mut self.prng),
            15 => edges::source(&mut self.prng),
            _ => return self.whole(&module, &source),
        };
        // the tree of this one is not known: it is asked about only where it is refused
        let reference = Reference::new(&source);
        let sizes = enough(reference.need(), &mut self.prng);
        if reference.expected(sizes).is_err() {
            self.source(&module, &reference, sizes, SOME_ROWS);
        }
    }

    /// The source of a module, with tables that suffice and of any sizes.
    fn whole(&mut self, module: &Module, source: &[u8]) {
        let reference = Reference::new(source);
        let sizes = enough(reference.need(), &mut self.prng);
        self.source(module, &reference, sizes, EVERY_ROW);
        for _ in 0..2 {
            let sizes = random(reference.need(), &mut self.prng);
            self.source(module, &reference, sizes, SOME_ROWS);
        }
    }

    /// Asks of every row, or of at most so many, and of numbers that are no row's.
    fn source(&mut self, module: &Module, reference: &Reference, sizes: Sizes, most: usize) {
        let rubbish = self.rubbish();
        let Some(alone) = loaded(reference, sizes, rubbish, &mut self.tally) else { return };
        let rows = bindings(module);
        let refused = match reference.expected(sizes) {
            Ok(content) => {
                assert!(rows.iter().map(resolved).eq(content.core.chunks_exact(ROW).map(named)), "scope and the Rust");
                None
            }
            Err(refusal) => Some(refusal),
        };
        for row in self.asked(&rows, sizes, most) {
            let expected = match (refused, rows.get(row).copied().flatten()) {
                (Some(refusal), _) => Err(refusal),
                (None, Some(bound)) => Ok(bound),
                (None, None) => Err(Refusal::nowhere(12)),
            };
            self.seen.answer(expected);
            let found = binder(reference.source, row, sizes, self.rubbish());
            let expected = expected.map(|bound| bound.binding);
            self.tally.count(reference.source, compare(expected, &alone, &found, row, sizes));
        }
    }

    /// Rows of the source; behind the last, also in the table; and numbers that are a reference's in 32 bits, or whose first
    /// word is.
    fn asked(&mut self, rows: &[Option<Bound>], sizes: Sizes, most: usize) -> Vec<usize> {
        let mut asked: Vec<usize> = if rows.len() <= most {
            (0..rows.len()).collect()
        } else {
            (0..most).map(|_| self.prng.below(rows.len())).collect()
        };
        let known = rows.iter().position(Option::is_some).unwrap_or(0);
        asked.extend([rows.len(), rows.len() + 1, (sizes.surface / ROW).max(rows.len()), usize::MAX]);
        asked.extend([1 << 32 | known, 1 << 61 | known, usize::MAX / ROW]);
        asked
    }

    fn rubbish(&mut self) -> Rubbish {
        match self.prng.below(4) {
            0 => Rubbish::Random(self.prng.bits()),
            other => Rubbish::ALL[other - 1],
        }
    }

    fn finish(mut self, enough: bool) -> ExitCode {
        let Seen { local, global, classes, traits } = self.seen;
        println!("local {local}, global {global}, refused by class from 1 {classes:?}");
        let told: Vec<String> = TRAITS.iter().zip(traits).map(|(name, count)| format!("{name} {count}")).collect();
        println!("of the references: {}", told.join(", "));
        if enough && (local == 0 || global == 0 || classes[0] == 0 || classes[11] == 0 || traits.contains(&0)) {
            self.tally.broken("some answer never came");
        }
        self.tally.finish()
    }
}

/// How often each sort of answer was expected, and which references these were about.
#[derive(Default)]
struct Seen {
    local: usize,
    global: usize,
    classes: [usize; 12],
    traits: [usize; TRAITS.len()],
}

impl Seen {
    fn answer(&mut self, expected: Result<Bound, Refusal>) {
        match expected.map(|bound| bound.binding) {
            Ok(Binding::Local { .. }) => self.local += 1,
            Ok(Binding::Global { .. }) => self.global += 1,
            Err(refusal) => self.classes[usize::from(refusal.class) - 1] += 1,
        }
        if let Ok(bound) = expected {
            self.traits.iter_mut().zip(bound.traits).for_each(|(count, holds)| *count += usize::from(holds));
        }
    }
}

/// The kind, and the count or place, that a reference's core row has: these the Rust gives too.
fn resolved(bound: &Option<Bound>) -> Option<(&'static str, usize)> {
    bound.map(|bound| match bound.binding {
        Binding::Local { count, .. } => ("var", count),
        Binding::Global { place } => ("global", place),
    })
}

fn named(core: &[u32]) -> Option<(&'static str, usize)> {
    let word = KINDS[core[0] as usize - 1];
    ["var", "global"].contains(&word).then_some((word, core[1] as usize))
}

/// The answer, and every word of every table: those that loading leaves or, after 12, 0.
fn compare(
    expected: Result<Binding, Refusal>,
    alone: &Loaded,
    found: &Loaded,
    row: usize,
    sizes: Sizes,
) -> Option<Mismatch> {
    let numbers = match expected {
        Ok(Binding::Local { count, row }) => (0, [2, count as u64, row as u64]),
        Ok(Binding::Global { place }) => (0, [1, place as u64, 0]),
        Err(refusal) => answer_numbers(&Err(refusal)),
    };
    let answer = differ("answer", format!("{numbers:?}"), format!("{:?}", (found.class, found.answer)));
    let cleared = matches!(expected, Err(Refusal { class: 12, .. }));
    let tables = || {
        let pairs = alone.tables.named().into_iter().zip(found.tables.named());
        pairs.into_iter().find_map(|((name, left), (_, words))| compare_words(name, left, words, cleared))
    };
    let outside = || differ("words beside a table", "", found.outside.unwrap_or_default());
    let mismatch = answer.or_else(tables).or_else(outside);
    mismatch.map(|mismatch| Mismatch { what: format!("{} for row {row} with {sizes:?}", mismatch.what), ..mismatch })
}

fn compare_words(name: &str, left: &[u32], found: &[u32], cleared: bool) -> Option<Mismatch> {
    let expected = |at: usize| if cleared { 0 } else { left[at] };
    let at = (0..left.len()).find(|at| found[*at] != expected(*at))?;
    differ(&format!("{name} word {at}"), expected(at), found[at])
}
