//! The question for the least storage against trees: the tests' own where a source was made from one, and else the Rust's.
//! Then loading with tables of just these sizes, which must answer and leave what it does with longer ones, with one row or
//! record less, and with any fewer. Where the source is refused, loading must refuse it so.
use super::card;
use super::chained::{chained, long};
use super::check::{answer_numbers, loaded};
use super::classes;
use super::edges;
use super::expected::Reference;
use super::generated::{deep, module, printed};
use super::heads;
use super::needs::Needs;
use super::order::Limits;
use super::scoped::scoped;
use super::short::{self, by_bytes, by_tokens};
use super::sizes::exact;
use super::station::{self, Loaded};
use super::tables::{RECORD, ROW, Rubbish, Sizes, Tables, WORK};
use common::damage::damaged;
use common::lists;
use common::modules::{Module, Shape, generate};
use common::prng::Prng;
use common::refusal::Refusal;
use common::tally::{Mismatch, Tally, differ};
use common::vocabulary::{HEAD, HEAD_0_2};
use std::process::ExitCode;

pub const COUNT: usize = 20_000;
/// With fewer sources some answers need not come.
const ENOUGH: usize = 400;
/// With as many, the sources of the part `classes` are asked about too.
const MANY: usize = 10_000;
/// "7 more than 512 frames open in one term"
const FRAMES: usize = 512;

pub fn run(count: usize, seed: u64) -> ExitCode {
    let mut comparison = Comparison { prng: Prng::new(seed), tally: Tally::default(), seen: Seen::default() };
    comparison.written_out();
    comparison.fixed();
    for at in 0..count {
        comparison.random(at);
        if comparison.tally.is_hopeless() {
            return comparison.tally.finish();
        }
    }
    comparison.all_short(count);
    if count >= MANY {
        classes::visit_all(|source| comparison.ask_once(source));
    }
    comparison.finish(count >= ENOUGH)
}

/// Rows, declarations and frames.
type Figures = [usize; 3];

/// Written out: a source, and what it needs or its refusal.
fn readings() -> Vec<(Vec<u8>, Result<Figures, Refusal>)> {
    let head = |rest: &str| format!("{HEAD}{rest}").into_bytes();
    let around = |forms: usize, inner: &str| format!("{}{inner}{}", "(fst ".repeat(forms), ")".repeat(forms));
    let postulate = |ty: &str| head(&format!("(postulate a {ty})"));
    let second = |ty: &str| format!("{HEAD_0_2}(postulate a {ty})").into_bytes();
    let arrows = |forms: usize| format!("{}nat{}", "(arrow nat ".repeat(forms), ")".repeat(forms));
    let one = |at| Err(Refusal::at(1, at));
    let (two, six, seven) = (Err(Refusal::nowhere(2)), Err(Refusal::nowhere(6)), Err(Refusal::nowhere(7)));
    let padded = |length: usize| [HEAD.as_bytes().to_vec(), vec![b' '; length - HEAD.len()]].concat();
    vec![
        (head(""), Ok([0, 0, 0])),
        (postulate("nat"), Ok([1, 1, 0])),
        (postulate("(universe 12)"), Ok([1, 1, 0])),
        // names are not looked at
        (postulate("(ref q)"), Ok([1, 1, 0])),
        (head("(postulate a nat)(postulate a (ref q))"), Ok([2, 2, 0])),
        (head("(postulate a (ref q))(postulate a nat)"), Ok([2, 2, 0])),
        (head("(postulate x nat)(postulate y (pi x (ref x) (ref x)))"), Ok([4, 2, 1])),
        (postulate("(lam x (lam y (app (ref x) (ref y))))"), Ok([5, 1, 3])),
        // side by side, and inside each other, at every argument
        (postulate("(pair (fst star) (snd star))"), Ok([5, 1, 2])),
        (postulate("(j nat nat (fst (snd star)) nat nat nat)"), Ok([9, 1, 3])),
        (postulate("(nat-elim (fst (fst star)) zero (fst star) zero)"), Ok([8, 1, 3])),
        // the most of all types and bodies, wherever that is
        (head("(opaque a (fst (fst star)) nat)"), Ok([4, 1, 2])),
        (head("(opaque a nat (fst (fst star)))"), Ok([4, 1, 2])),
        (head("(transparent a (fst star) (fst star))"), Ok([4, 1, 1])),
        (head("(postulate a (fst (fst star)))(postulate b nat)"), Ok([4, 2, 2])),
        (head("(postulate b nat)(opaque a nat (fst (fst star)))(opaque c nat (fst nat))"), Ok([8, 3, 2])),
        // 512 frames around a leaf, a ref and a universe
        (postulate(&around(FRAMES, "star")), Ok([513, 1, 512])),
        (postulate(&around(FRAMES, "(ref q)")), Ok([513, 1, 512])),
        (postulate(&around(FRAMES, "(universe 1)")), Ok([513, 1, 512])),
        (head(&format!("(opaque a {0} {0})", around(FRAMES, "star"))), Ok([1_026, 1, 512])),
        (postulate(&around(FRAMES + 1, "star")), seven),
        (head(&format!("(postulate a {}(fst", "(fst ".repeat(FRAMES))), seven),
        (head(&format!("(postulate a {}(fst]", "(fst ".repeat(FRAMES))), one(2_600)),
        (head(&format!("(postulate a {}(pi nat", "(fst ".repeat(FRAMES))), Err(Refusal::at(3, 2_600))),
        (head(&format!("(postulate a {}(bogus", "(fst ".repeat(FRAMES))), one(2_597)),
        // edition 0 2: an arrow is a row and a frame
        (second("(arrow nat nat)"), Ok([3, 1, 1])),
        (second("(arrow (arrow nat nat) (fst (arrow nat (ref q))))"), Ok([8, 1, 3])),
        (second(&arrows(FRAMES)), Ok([1_025, 1, 512])),
        (second(&arrows(FRAMES + 1)), seven),
        (second("(ref arrow)"), Err(Refusal::at(3, 41))),
        (postulate("(ref arrow)"), Ok([1, 1, 0])),
        (postulate("(arrow nat nat)"), one(37)),
        // more than the listing lends
        (head(&format!("(opaque a {} {})", around(512, "star"), around(511, "star"))), Ok([1_025, 1, 512])),
        (head(&"(postulate a nat)".repeat(257)), Ok([257, 257, 0])),
        // as many as a source can have: 65,535 bytes hold 3,853 declarations behind the head
        (head(&"(postulate a nat)".repeat(3_853)), Ok([3_853, 3_853, 0])),
        (head(&format!("(postulate a{})", dense(5))), Ok([2_185, 1, 6])),
        // refused
        (Vec::new(), one(0)),
        (head("("), one(24)),
        (head("(postulate a nat"), one(39)),
        (head("(postulate a nat) ]"), one(41)),
        (b"(surface 1 0) ]".to_vec(), two),
        (b"(surface 0 3) ]".to_vec(), two),
        (b"(surface 0 2) ]".to_vec(), one(14)),
        (b"(surface 1 0) \xff".to_vec(), one(14)),
        (head("(postulate nat nat)"), Err(Refusal::at(3, 34))),
        (head("(postulate b (ref q))(postulate b (pi nat"), Err(Refusal::at(3, 61))),
        (b"\xef\xbb\xbf".to_vec(), one(0)),
        ([b"\xef\xbb\xbf".to_vec(), head("")].concat(), one(0)),
        ([b"\xef\xbb\xbf".to_vec(), head(";"), b"\xff".to_vec()].concat(), one(27)),
        ([b"]".to_vec(), head(";"), b"\xc3".to_vec()].concat(), one(25)),
        (padded(65_535), Ok([0, 0, 0])),
        (padded(65_536), six),
        (vec![b' '; 65_536], six),
        (vec![0xff; 65_536], six),
        (vec![0xff; 65_535], one(0)),
    ]
}

/// The form with the most rows to the byte: j with forms and leaves in turn, so that hardly a space is needed.
fn dense(depth: usize) -> String {
    match depth {
        0 => String::from("(j nat nat nat nat nat nat)"),
        _ => format!("(j{0}nat{0}nat{0}nat)", dense(depth - 1)),
    }
}

/// An answer as the library tells it.
fn numbers(told: &Result<Figures, Refusal>) -> (u8, [u64; 4]) {
    match told {
        Ok(figures) => {
            let [rows, declarations, frames] = figures.map(|figure| figure as u64);
            (0, [3, rows, declarations, frames])
        }
        Err(refusal) => {
            let (class, [count, first, second]) = answer_numbers(&Err(*refusal));
            (class, [count, first, second, 0])
        }
    }
}

/// Tables by the rule of thumb: "a term has at least 3 bytes of source, a declaration at least 17".
fn for_bytes(source: &[u8]) -> Sizes {
    exact(Limits { rows: source.len() / 3, declarations: source.len() / 17 })
}

struct Comparison {
    prng: Prng,
    tally: Tally,
    seen: Seen,
}

impl Comparison {
    fn written_out(&mut self) {
        for (source, told) in readings() {
            let found = station::storage(&source, WORK, Rubbish::Mixed);
            let found = format!("{:?}", (found.class, found.answer));
            self.tally.count(&source, differ("figures", format!("{:?}", numbers(&told)), found));
            self.compare(&source, None);
        }
    }

    /// Every source of the list, of document 01's card and of the readings about heads.
    fn fixed(&mut self) {
        match lists::read("tests/lists/answers.txt") {
            Ok(lines) => lines.iter().for_each(|line| self.compare(&line.source, None)),
            Err(error) => self.tally.broken(&error),
        }
        card::sources().for_each(|source| self.compare(&source, None));
        heads::readings().iter().for_each(|(source, _)| self.compare(source, None));
    }

    fn random(&mut self, at: usize) {
        let prng = &mut self.prng;
        let tree = match at % 16 {
            0..=3 => module(prng),
            4 | 5 => uneven(prng),
            6 => scoped(prng),
            7 => chained(prng),
            8 if at % 512 == 8 => long(900, prng),
            8 => deep(prng),
            9 | 10 => {
                let tree = module(prng);
                let source = damaged(&printed(&tree, prng), prng);
                return self.compare(&source, None);
            }
            11..=14 => {
                let source = edges::source(prng);
                return self.compare(&source, None);
            }
            _ => {
                let source = heads::source(prng);
                return self.compare(&source, None);
            }
        };
        let source = printed(&tree, &mut self.prng);
        self.compare(&source, Some(&tree));
    }

    fn all_short(&mut self, count: usize) {
        let length = by_tokens(short::tokens(), count, |source| {
            self.compare(source, None);
            Reference::new(source).is_open()
        });
        println!("all sources of up to {length} tokens behind each of six beginnings");
        let longest = if count < MANY { 1 } else { 2 };
        by_bytes(short::bytes(), longest, |source| self.compare(source, None));
        println!("all strings of up to {longest} of 16 bytes behind each of five beginnings");
    }

    /// Asks with work areas of two lengths, and loads with tables of all sizes that the answer is about.
    fn compare(&mut self, source: &[u8], tree: Option<&Module>) {
        if self.tally.is_hopeless() {
            return;
        }
        let reference = Reference::new(source);
        let other = match self.prng.below(8) {
            0 => 0,
            1 => self.prng.below(WORK),
            2 | 3 => WORK - 1,
            _ => WORK + *self.prng.pick(&[1, 7, 16, 500, 5_000]),
        };
        for work in [WORK, other] {
            self.ask(&reference, work, tree);
        }
        match needed(&reference, WORK) {
            Ok(needs) => self.load(&reference, &needs),
            Err(refusal) => self.load_refused(&reference, refusal),
        }
    }

    /// Asks, and loads with tables of just these sizes.
    fn ask_once(&mut self, source: &[u8]) {
        if self.tally.is_hopeless() {
            return;
        }
        let reference = Reference::new(source);
        self.ask(&reference, WORK, None);
        if let Ok(needs) = needed(&reference, WORK) {
            let sizes = exact(needs.limits());
            self.left(&reference, sizes);
        }
    }

    fn ask(&mut self, reference: &Reference, work: usize, tree: Option<&Module>) {
        let expected = needed(reference, work);
        let own = tree.filter(|_| expected.is_ok()).map(Needs::of_trees);
        self.seen.answer(&expected, own.is_some());
        let trees = match (&expected, own) {
            (Ok(needs), Some(own)) => differ("needs of the tests' tree", format!("{own:?}"), format!("{needs:?}")),
            _ => None,
        };
        let told = expected.map(|needs| [needs.rows(), needs.declarations(), needs.greatest()]);
        let found = station::storage(reference.source, work, self.rubbish());
        let left = found.work.iter().position(|word| *word != 0);
        let mismatch = trees
            .or_else(|| {
                differ("figures", format!("{:?}", numbers(&told)), format!("{:?}", (found.class, found.answer)))
            })
            .or_else(|| differ("words left in the work area", format!("{:?}", None::<usize>), format!("{left:?}")))
            .or_else(|| differ("words changed beside the work area", false, found.outside))
            .map(|mismatch| Mismatch { what: format!("{} with {work} words", mismatch.what), ..mismatch });
        self.tally.count(reference.source, mismatch);
    }

    /// "With row tables and a declaration list of exactly those sizes, loading gives the answer that generous tables give."
    fn load(&mut self, reference: &Reference, needs: &Needs) {
        let generous = self.larger(for_bytes(reference.source));
        let just = exact(needs.limits());
        let over = Tables {
            surface: just.surface + self.prng.below(ROW),
            core: just.core + self.prng.below(ROW),
            declarations: just.declarations + self.prng.below(RECORD),
            work: WORK,
        };
        let Some(left) = self.left(reference, generous) else { return };
        self.seen.loaded(left.class);
        for sizes in [just, over, for_bytes(reference.source)] {
            if let Some(found) = self.left(reference, sizes) {
                self.tally.count(reference.source, alike(&left, &found, sizes));
            }
        }
        if needs.declarations() > 0 {
            self.load_with_less(reference, needs);
        }
    }

    /// "one surface row fewer gives 8, and one declaration fewer gives 9; with both fewer, the one that reading meets first."
    fn load_with_less(&mut self, reference: &Reference, needs: &Needs) {
        let just = exact(needs.limits());
        let (rows, declarations) = (just.surface - ROW, just.declarations - RECORD);
        self.refuses(reference, Tables { surface: rows, ..just }, 8);
        self.refuses(reference, Tables { surface: just.surface - 1, core: 0, ..just }, 8);
        self.refuses(reference, Tables { core: rows, ..just }, 10);
        self.refuses(reference, Tables { declarations, ..just }, 9);
        self.refuses(reference, Tables { surface: rows, declarations, ..just }, 9);
        for _ in 0..2 {
            let Limits { rows, declarations } = needs.limits();
            let room = Limits { rows: self.prng.below(rows), declarations: self.prng.below(declarations) };
            let met = needs.met_first(room).expect("both are too few");
            self.seen.met_first[usize::from(met.class) - 8] += 1;
            self.refuses(reference, Tables { core: just.core, ..exact(room) }, met.class);
        }
    }

    /// A source that is refused here is so refused by loading, whatever suffices.
    fn load_refused(&mut self, reference: &Reference, refusal: Refusal) {
        for sizes in [for_bytes(reference.source), self.larger(for_bytes(reference.source))] {
            if let Some(found) = self.left(reference, sizes) {
                let told = format!("{:?}", answer_numbers(&Err(refusal)));
                let mismatch = differ("refusal of loading", told, format!("{:?}", (found.class, found.answer)));
                self.tally.count(reference.source, mismatch);
            }
        }
    }

    /// Loading with tables of these sizes is refused so, nowhere.
    fn refuses(&mut self, reference: &Reference, sizes: Sizes, class: u8) {
        if let Some(found) = self.left(reference, sizes) {
            let told = format!("{:?}", (class, [0_u64; 3]));
            let mismatch =
                differ(&format!("refusal with {sizes:?}"), told, format!("{:?}", (found.class, found.answer)));
            self.tally.count(reference.source, mismatch);
        }
    }

    /// What loading leaves, once every word is what the Rust and the reading order say.
    fn left(&mut self, reference: &Reference, sizes: Sizes) -> Option<Loaded> {
        let rubbish = self.rubbish();
        loaded(reference, sizes, rubbish, &mut self.tally)
    }

    fn larger(&mut self, sizes: Sizes) -> Sizes {
        let mut more = |words: usize| words + *self.prng.pick(&[1, 8, 40, 1_000]);
        Tables { work: sizes.work, ..sizes.map(&mut more) }
    }

    fn rubbish(&mut self) -> Rubbish {
        match self.prng.below(16) {
            0 => Rubbish::Random(self.prng.bits()),
            other => Rubbish::ALL[other % Rubbish::ALL.len()],
        }
    }

    fn finish(mut self, enough: bool) -> ExitCode {
        println!("{:?}", self.seen);
        if enough && !self.seen.all() {
            self.tally.broken("some answer never came");
        }
        self.tally.finish()
    }
}

/// What document 02 says of a source and a work area of so many words.
fn needed(reference: &Reference, work: usize) -> Result<Needs, Refusal> {
    // as many as reading wants before it ends, however that is
    let enough = Tables { work, ..exact(reference.need()) };
    match reference.expected(enough) {
        Err(refusal) if ![4, 5].contains(&refusal.class) => Err(refusal),
        _ => Ok(Needs::of_rust(reference.module().expect("it is read to its end"))),
    }
}

/// Declarations whose types and bodies have different numbers of frames, with names that are not known or known twice.
fn uneven(prng: &mut Prng) -> Module {
    let mut whole = generate(prng, &Shape { declarations: 3, ..Shape::doubtful() });
    for _ in 0..prng.between(1, 4) {
        let shape = Shape { declarations: 2, depth: prng.between(0, 30), size: 60, ..Shape::doubtful() };
        let more = generate(prng, &shape).declarations;
        let at = prng.between(0, whole.declarations.len());
        whole.declarations.splice(at..at, more);
    }
    whole
}

/// Two loads of a source: their answers, and their rows and records.
fn alike(one: &Loaded, other: &Loaded, sizes: Sizes) -> Option<Mismatch> {
    let [rows, records] = if one.class == 0 { [one.answer[1], one.answer[2]] } else { [0, 0] };
    let first = |words: &[u32], width: usize, count: u64| words[..width * count as usize].to_vec();
    let parts = |loaded: &Loaded| {
        let Tables { surface, core, declarations, .. } = &loaded.tables;
        [first(surface, ROW, rows), first(core, ROW, rows), first(declarations, RECORD, records)]
    };
    let answers = [one, other].map(|loaded| format!("{:?}", (loaded.class, loaded.answer)));
    let [told, found] = answers;
    differ(&format!("answer with {sizes:?}"), told, found).or_else(|| {
        let what = format!("rows and records with {sizes:?}");
        differ(&what, format!("{:?}", parts(one)), format!("{:?}", parts(other)))
    })
}

/// How often each sort of answer was expected.
#[derive(Debug, Default)]
struct Seen {
    /// By the tests' own trees.
    trees: usize,
    nothing: usize,
    no_frames: usize,
    most_frames: usize,
    /// More frames in the first type or body, or in one between, than in the last.
    frames_before_the_last: usize,
    frames_in_a_body: usize,
    /// More than the listing lends.
    over_1024_rows: usize,
    over_256_declarations: usize,
    refused_by_class: [usize; 11],
    /// Of the sources that are not refused here, those that loading accepts, and refuses with 4 and 5.
    loaded: [usize; 6],
    /// With both fewer: 8 and 9.
    met_first: [usize; 2],
}

impl Seen {
    fn answer(&mut self, expected: &Result<Needs, Refusal>, own: bool) {
        let needs = match expected {
            Ok(needs) => needs,
            Err(refusal) => {
                self.refused_by_class[usize::from(refusal.class) - 1] += 1;
                return;
            }
        };
        let (frames, greatest) = (needs.frames(), needs.greatest());
        let count = |sort: &mut usize, holds: bool| *sort += usize::from(holds);
        count(&mut self.trees, own);
        count(&mut self.nothing, needs.declarations() == 0);
        count(&mut self.no_frames, needs.declarations() > 0 && greatest == 0);
        count(&mut self.most_frames, greatest == FRAMES);
        count(&mut self.frames_before_the_last, frames.last().is_some_and(|last| *last < greatest));
        count(&mut self.frames_in_a_body, needs.deepest_is_a_body());
        count(&mut self.over_1024_rows, needs.rows() > 1_024);
        count(&mut self.over_256_declarations, needs.declarations() > 256);
    }

    fn loaded(&mut self, class: u8) {
        self.loaded[usize::from(class)] += 1;
    }

    /// 1, 2, 3, 6, 7 and 11 must have come, and no other class; of loading acceptance, 4 and 5.
    fn all(&self) -> bool {
        let sorts = [self.trees, self.nothing, self.no_frames, self.most_frames, self.frames_before_the_last];
        let more = [self.frames_in_a_body, self.over_1024_rows, self.over_256_declarations];
        let came = |counts: &[usize], classes: &[usize]| {
            counts.iter().enumerate().all(|(class, count)| classes.contains(&class) == (*count > 0))
        };
        !sorts.iter().chain(&more).chain(&self.met_first).any(|count| *count == 0)
            && came(&self.refused_by_class, &[0, 1, 2, 5, 6, 10])
            && came(&self.loaded, &[0, 4, 5])
    }
}
