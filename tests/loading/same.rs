//! The same-core question against agreement, which is computed from the two trees by places: pairs that agree, that
//! nearly agree, and refused ones, with tables of sizes that suffice and of any.
use super::agreement::parting;
use super::check::compare_tables;
use super::expected::{Content, Reference};
use super::generated::{module, printed, small};
use super::sizes::{enough, random};
use super::station::{Loaded, same};
use super::tables::{LISTING, Rubbish, Sizes, Tables};
use common::alter::alter;
use common::damage::damaged;
use common::modules::{Module, Shape, Term, generate};
use common::prng::Prng;
use common::refusal::Refusal;
use common::renaming::rename_binders;
use common::tally::{Mismatch, Tally, differ};
use common::vocabulary::Edition;
use std::ops::RangeInclusive;
use std::process::ExitCode;

/// So many pairs are asked about.
pub const COUNT: usize = 8_000;
/// With fewer pairs some answers need not come.
const ENOUGH: usize = 200;

pub fn run(count: usize, seed: u64) -> ExitCode {
    let mut prng = Prng::new(seed);
    let mut tally = Tally::default();
    let mut answers = [0; 5];
    let mut across = [0; 2];
    written_out(&mut tally);
    for at in 0..count {
        let [left, right] = pair(at, &mut prng);
        let mut sources = [&left, &right].map(|module| printed(module, &mut prng));
        // of a damaged source the tree is not known: it is asked about only where it is refused
        let damage = (at % 8 == 7).then(|| prng.below(2));
        if let Some(which) = damage {
            sources[which] = damaged(&sources[which], &mut prng);
        }
        let editions = [left.edition, right.edition];
        let question = Question { references: [Reference::new(&sources[0]), Reference::new(&sources[1])], left, right };
        let sizes = question.sizes(&mut prng);
        let expected = question.expected(sizes);
        if damage.is_none() || expected.class != 0 {
            let found = same([&sources[0], &sources[1]], sizes, *prng.pick(&Rubbish::ALL));
            answers[expected.sort()] += 1;
            if expected.class == 0 && editions[0] != editions[1] {
                across[usize::from(expected.sort() > 0)] += 1;
            }
            let both = [&sources[0][..], b"\n", &sources[1]].concat();
            tally.count(&both, expected.compare(sizes, &found));
        }
        if tally.is_hopeless() {
            break;
        }
    }
    println!("same {}, different at 0 {}, further on {}", answers[0], answers[1], answers[2]);
    println!("first refused {}, second refused {}", answers[3], answers[4]);
    println!("one source of each edition: same {}, different {}", across[0], across[1]);
    if count >= ENOUGH && (answers.contains(&0) || across.contains(&0)) {
        tally.broken("some answer never came");
    }
    tally.finish()
}

/// "Where two sources are compared for the same core, of either edition, an arrow agrees in form with a pi, and the condition on
/// references does the rest": two types, each behind its edition's head, and whether they agree.
const ARROWS: [([&str; 2], bool); 12] = [
    (["{2}(arrow nat nat)", "{H}(pi x nat nat)"], true),
    (["{2}(arrow nat nat)", "{2}(pi _ nat nat)"], true),
    (["{2}(arrow nat nat)", "{H}(sigma x nat nat)"], false),
    (["{2}(arrow nat nat)", "{H}(pi x nat unit)"], false),
    (["{2}(lam x (arrow nat (ref x)))", "{H}(lam y (pi z nat (ref y)))"], true),
    (["{2}(lam x (arrow nat (ref x)))", "{H}(lam x (pi x nat (ref x)))"], false),
    (["{2}(lam x (arrow (ref x) nat))", "{H}(lam x (pi x (ref x) nat))"], true),
    (["{2}(pi x nat (arrow nat (ref x)))", "{H}(pi x nat (pi y nat (ref y)))"], false),
    (["{2}(pi x nat (arrow nat (ref x)))", "{2}(arrow nat (pi x nat (ref x)))"], false),
    (["{2}(arrow (arrow nat nat) nat)", "{2}(arrow nat (arrow nat nat))"], false),
    (["{2}(arrow nat (ref g))", "{H}(pi x nat (ref g))"], true),
    (["{2}(arrow nat (ref g))", "{H}(pi g nat (ref g))"], false),
];

fn written_out(tally: &mut Tally) {
    for (types, agree) in ARROWS {
        let [left, right] = types.map(|ty| {
            let (head, ty) = ty.split_at(3);
            let edition = if head == "{2}" { Edition::Second } else { Edition::First };
            format!("{}(postulate g nat)(postulate a {ty})", edition.head()).into_bytes()
        });
        for sources in [[&left, &right], [&right, &left]] {
            let found = same(sources.map(|source| &source[..]), [LISTING, LISTING], Rubbish::Mixed);
            let told = if agree { (0, [0, 0, 0]) } else { (0, [1, 1, 0]) };
            let both = [&sources[0][..], b"\n", sources[1]].concat();
            let found = (found[0].class, found[0].answer);
            tally.count(&both, differ("answer", format!("{told:?}"), format!("{found:?}")));
        }
    }
}

/// Two modules; most of the second ones come from the first, with other binders.
fn pair(at: usize, prng: &mut Prng) -> [Module; 2] {
    if at % 8 == 4 {
        return [small(prng), small(prng)];
    }
    let shape = match at % 8 {
        5 => Shape { declarations: 40, size: 4, ..Shape::accepted() },
        _ => Shape { declarations: 6, depth: 6, size: 12, names: 3, ..Shape::accepted() },
    };
    let left = if at % 8 == 6 { module(prng) } else { generate(prng, &shape) };
    let mut right = rename_binders(&left, prng);
    match at % 8 {
        0 | 1 | 7 => {}
        2 | 5 => alter(&mut right, prng),
        _ => change(&mut right, prng),
    }
    [left, right]
}

/// A declaration left out, doubled behind the last under another name, or two of them swapped; or one byte of the last
/// name, which nothing refers to, or of a numeral.
fn change(module: &mut Module, prng: &mut Prng) {
    let declarations = &mut module.declarations;
    let Some(last) = declarations.len().checked_sub(1) else {
        return;
    };
    let at = prng.below(declarations.len());
    match prng.below(6) {
        0 => drop(declarations.remove(at)),
        1 => drop(declarations.pop()),
        2 => {
            let mut copy = declarations[at].clone();
            copy.name.push_str("_again");
            declarations.push(copy);
        }
        3 => declarations.swap(at, last),
        4 => turn_last(&mut declarations[last].name, b'a'..=b'z'),
        _ => {
            let terms =
                declarations.iter_mut().flat_map(|declaration| [Some(&mut declaration.ty), declaration.body.as_mut()]);
            let mut numerals: Vec<&mut String> = terms.flatten().flat_map(numerals).collect();
            if !numerals.is_empty() {
                let at = prng.below(numerals.len());
                turn_last(numerals[at], b'0'..=b'9');
            }
        }
    }
}

/// The last byte becomes the one behind it in a range, and the last of the range the first.
fn turn_last(text: &mut String, range: RangeInclusive<u8>) {
    let last = text.pop().map_or(0, |last| last as u8);
    let next = if range.contains(&last) && last < *range.end() { last + 1 } else { *range.start() };
    text.push(char::from(next));
}

fn numerals(term: &mut Term) -> Vec<&mut String> {
    match term {
        Term::Universe(digits) => vec![digits],
        Term::Node { args, .. } => args.iter_mut().flat_map(numerals).collect(),
        Term::Leaf(_) | Term::Ref(_) => Vec::new(),
    }
}

struct Question<'a> {
    references: [Reference<'a>; 2],
    left: Module,
    right: Module,
}

impl Question<'_> {
    /// One work area serves both.
    fn sizes(&self, prng: &mut Prng) -> [Sizes; 2] {
        let [one, other] = self.references.each_ref().map(|reference| {
            let need = reference.need();
            if prng.chance(93) { enough(need, prng) } else { random(need, prng) }
        });
        [one, Tables { work: one.work, ..other }]
    }

    fn expected(&self, sizes: [Sizes; 2]) -> Expected<'_> {
        let [one, other] = &self.references;
        match [one.expected(sizes[0]), other.expected(sizes[1])] {
            [Err(refusal), _] => Expected::refused(1, refusal),
            [_, Err(refusal)] => Expected::refused(2, refusal),
            [Ok(first), Ok(second)] => {
                let answer = parting(&self.left, &self.right).map_or([0; 3], |place| [1, place as u64, 0]);
                Expected { class: 0, answer, left: Some([first, second]) }
            }
        }
    }
}

/// The class, the numbers of the answer, and what the tables hold; None is 0 everywhere.
struct Expected<'a> {
    class: u8,
    answer: [u64; 3],
    left: Option<[&'a Content; 2]>,
}

impl Expected<'_> {
    fn refused(which: u64, refusal: Refusal) -> Self {
        let answer = refusal.offset.map_or([1, which, 0], |offset| [2, which, offset as u64]);
        Self { class: refusal.class, answer, left: None }
    }

    /// Same, different at the first declaration, different further on, the first refused, the second.
    fn sort(&self) -> usize {
        match self.answer {
            [_, which, _] if self.class != 0 => which as usize + 2,
            [0, ..] => 0,
            [_, place, _] => 1 + usize::from(place > 0),
        }
    }

    fn compare(&self, sizes: [Sizes; 2], [first, second]: &[Loaded; 2]) -> Option<Mismatch> {
        let nothing = Content::default();
        let [one, other] = self.left.unwrap_or([&nothing, &nothing]);
        let found = format!("{} {:?}", first.class, first.answer);
        let mismatch = differ("answer", format!("{} {:?}", self.class, self.answer), found)
            .or_else(|| compare_tables(one, first))
            .or_else(|| compare_tables(other, second));
        mismatch.map(|mismatch| Mismatch { what: format!("{} with {sizes:?}", mismatch.what), ..mismatch })
    }
}
