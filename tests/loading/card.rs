//! Documents 01's and 02's readings written out: the card, where each limit is met, scope, and edition 0 2; behind them those of
//! limits.rs. Sources are escaped, and `{H}` is the head, `{2}` that of 0 2. A listing is joined by `|`, and where only its first
//! line is written it ends in `|..`.
use super::check::loaded;
use super::expected::Reference;
use super::limits;
use super::listing::lines;
use super::station::{Reader, load};
use super::tables::{LISTING, Rubbish, Sizes, Tables, WORK};
use common::escape::unescape;
use common::tally::{Tally, differ};
use common::vocabulary::{HEAD, HEAD_0_2};
use std::process::ExitCode;

type Reading = (Sizes, &'static str, &'static str);

const EMPTY: &str = "nodes 0 declarations 0";
const INPUT: &str = "{H}(postulate x nat)(postulate y (pi x (ref x) (ref x)))";
const OUTPUT: &str = "nodes 4 declarations 2|0 nat|1 global 0|2 var 0|3 pi 1 2|0 postulate x 0|1 postulate y 3";

/// "Readings on the card", all lines.
const CARD: [Reading; 21] = [
    (LISTING, "", "refused 1 at 0"),
    (LISTING, "(", "refused 1 at 1"),
    (LISTING, "{H}", EMPTY),
    (LISTING, "(surface 1 0", "refused 1 at 12"),
    (LISTING, "(surface 1 0) ]", "refused 2"),
    (LISTING, "(surface 00 1)", "refused 1 at 9"),
    (LISTING, "{H}(postulate nat-elim nat)", "refused 3 at 34"),
    (LISTING, "{H}(postulate a-b nat)", "refused 1 at 34"),
    (LISTING, "{H}(postulate a nat)(postulate a (ref q))", "refused 4"),
    (LISTING, "{H}(postulate a (ref q))(postulate a nat)", "refused 5"),
    (LISTING, "{H}(postulate b (ref q))(", "refused 1 at 45"),
    (LISTING, INPUT, OUTPUT),
    (LISTING, "{H}(postulate f (pi _ nat (ref _)))", "nodes 3 declarations 1|0 nat|1 var 0|2 pi 0 1|0 postulate f 2"),
    (LISTING, ";\\xc3\\xa9\\n{H}", EMPTY),
    (LISTING, ";\\xc3\\n", "refused 1 at 1"),
    (LISTING, "{H}\\{65512: }", EMPTY),
    (LISTING, "{H}\\{65513: }", "refused 6"),
    (LISTING, "{H}(postulate a \\{512:(fst }star\\{512:)})", "nodes 513 declarations 1|.."),
    (LISTING, "{H}(postulate a \\{513:(fst }star\\{513:)})", "refused 7"),
    (with_surface(31), INPUT, "refused 8"),
    (with_surface(32), INPUT, OUTPUT),
];

/// 7: a frame is a form with term arguments; after the tag and binder; in one type or body.
const FRAMES: [Reading; 17] = [
    (LISTING, "{H}(postulate a \\{512:(fst }(universe 1)\\{512:)})", "nodes 513 declarations 1|.."),
    (LISTING, "{H}(postulate a \\{512:(fst }(ref q)\\{512:)})", "refused 5"),
    (LISTING, "{H}(postulate a \\{512:(lam x }(ref x)\\{512:)})", "nodes 513 declarations 1|.."),
    (LISTING, "{H}(postulate a \\{513:(lam x }(ref x)\\{513:)})", "refused 7"),
    (LISTING, "{H}(postulate a \\{512:(fst }(bogus", "refused 1 at 2597"),
    (LISTING, "{H}(postulate a \\{512:(fst }(pi nat", "refused 3 at 2600"),
    (LISTING, "{H}(postulate a \\{512:(fst }(pi a-b", "refused 1 at 2600"),
    (LISTING, "{H}(postulate a \\{512:(fst }(pi", "refused 1 at 2599"),
    (LISTING, "{H}(postulate a \\{512:(fst }(pi x", "refused 7"),
    (LISTING, "{H}(postulate a \\{512:(fst }(fst", "refused 7"),
    (LISTING, "{H}(postulate a \\{512:(fst }(fst]", "refused 1 at 2600"),
    (LISTING, "{H}(postulate a \\{512:(fst }(fst ]", "refused 7"),
    (LISTING, "{H}(postulate a \\{512:(fst }nat", "refused 1 at 2599"),
    (LISTING, "{H}(postulate a (pair \\{511:(fst }star\\{511:)} \\{511:(fst }star\\{511:)}))", "refused 8"),
    (
        rows(1026),
        "{H}(postulate a (pair \\{511:(fst }star\\{511:)} \\{511:(fst }star\\{511:)}))",
        "nodes 1025 declarations 1|..",
    ),
    (rows(1026), "{H}(opaque a \\{512:(fst }star\\{512:)} \\{512:(fst }star\\{512:)})", "nodes 1026 declarations 1|.."),
    (LISTING, "{H}(opaque a \\{512:(fst }star\\{512:)} \\{510:(fst }star\\{510:)})", "nodes 1024 declarations 1|.."),
];

/// 8: a form, ref or universe is complete with its parenthesis, a leaf with its atom. The table has one row.
const ROWS: [Reading; 13] = [
    (with_surface(15), "{H}(postulate a nat)(postulate b (ref z", "refused 1 at 59"),
    (with_surface(15), "{H}(postulate a nat)(postulate b (ref z z)", "refused 1 at 60"),
    (with_surface(15), "{H}(postulate a nat)(postulate b (ref nat)", "refused 3 at 58"),
    (with_surface(15), "{H}(postulate a nat)(postulate b (ref z)", "refused 8"),
    (with_surface(15), "{H}(postulate a nat)(postulate b (universe 00)", "refused 1 at 63"),
    (with_surface(15), "{H}(postulate a nat)(postulate b (universe 0)", "refused 8"),
    (with_surface(15), "{H}(postulate a nat)(postulate b nat", "refused 8"),
    (with_surface(15), "{H}(postulate a nat)(postulate b nat x", "refused 8"),
    (with_surface(15), "{H}(postulate a nat)(postulate b natx", "refused 1 at 53"),
    (with_surface(15), "{H}(postulate a nat)(postulate b nat]", "refused 1 at 56"),
    (with_surface(15), "{H}(postulate a nat)(postulate b (fst (fst (fst", "refused 1 at 67"),
    (with_surface(15), "{H}(postulate a (fst nat))", "refused 8"),
    (with_surface(15), "{H}(postulate a nat) ;x", "nodes 1 declarations 1|0 nat|0 postulate a 0"),
];

/// 9: at the parenthesis, before its tag. The list has one record.
const RECORDS: [Reading; 10] = [
    (with_declarations(9), "{H}(postulate a nat)(", "refused 9"),
    (with_declarations(9), "{H}(postulate a nat)(]", "refused 9"),
    (with_declarations(9), "{H}(postulate a nat)(bogus", "refused 9"),
    (with_declarations(9), "{H}(postulate a nat) )", "refused 1 at 41"),
    (with_declarations(9), "{H}(postulate a nat) nat", "refused 1 at 41"),
    (with_declarations(9), "{H}(postulate a nat)]", "refused 1 at 40"),
    (with_declarations(9), "{H}(postulate a nat) ;(", "nodes 1 declarations 1|0 nat|0 postulate a 0"),
    (with_declarations(4), "{H}(postulate a nat)", "refused 9"),
    (Tables { surface: 24, declarations: 5, ..LISTING }, INPUT, "refused 9"),
    (Tables { surface: 8, declarations: 5, ..LISTING }, "{H}(postulate a nat)(", "refused 9"),
];

/// 10 after reading and before names; 11 and 6 before everything.
const ORDER: [Reading; 19] = [
    (with_core(31), INPUT, "refused 10"),
    (with_core(32), INPUT, OUTPUT),
    (with_core(7), "{H}(postulate a (ref q))", "refused 10"),
    (with_core(8), "{H}(postulate a (ref q))", "refused 5"),
    (with_core(15), "{H}(postulate a nat)(postulate a nat)", "refused 10"),
    (with_core(0), "{H}(postulate a nat)]", "refused 1 at 40"),
    (with_core(0), "{H}(postulate nat", "refused 3 at 34"),
    (Tables { surface: 31, ..with_core(0) }, INPUT, "refused 8"),
    (Tables { declarations: 5, ..with_core(0) }, INPUT, "refused 9"),
    (with_core(0), "{H}", EMPTY),
    (with_work(WORK - 1), "", "refused 11"),
    (with_work(WORK - 1), INPUT, "refused 11"),
    (with_work(WORK - 1), "\\{65536: }", "refused 11"),
    (with_work(0), "\\xff", "refused 11"),
    (with_work(WORK + 16), INPUT, OUTPUT),
    (LISTING, "\\{65536:\\xff}", "refused 6"),
    (LISTING, "\\{65535:\\xff}", "refused 1 at 0"),
    (LISTING, "\\xef\\xbb\\xbf{H}", "refused 1 at 0"),
    (LISTING, "\\xef\\xbb\\xbf{H};\\xff", "refused 1 at 27"),
];

/// What a declaration and a binder are seen by.
const SCOPE: [Reading; 8] = [
    (LISTING, "{H}(postulate a (ref a))", "refused 5"),
    (LISTING, "{H}(transparent a nat (ref a))", "refused 5"),
    (LISTING, "{H}(postulate a (ref b))(postulate b nat)", "refused 5"),
    (LISTING, "{H}(postulate a (ref m))", "refused 5"),
    (LISTING, "{H}(postulate a (pi x (ref x) nat))", "refused 5"),
    (
        LISTING,
        "{H}(postulate a (lam y (pi x (ref y) (ref y))))",
        "nodes 4 declarations 1|0 var 0|1 var 1|2 pi 0 1|3 lam 2|0 postulate a 3",
    ),
    (
        LISTING,
        "{H}(postulate x nat)(transparent y (ref x) (lam x (ref x)))",
        "nodes 4 declarations 2|0 nat|1 global 0|2 var 0|3 lam 2|0 postulate x 0|1 transparent y 1 3",
    ),
    (
        LISTING,
        "{H}(opaque a (j nat unit star zero empty (universe 7)) zero)",
        "nodes 8 declarations 1|0 nat|1 unit|2 star|3 zero|4 empty|5 universe 7|6 j 0 1 2 3 4 5|7 zero|0 opaque a 6 7",
    ),
];

/// Edition 0 2. What its words are and count is in answers.txt too, from the same sentences.
const ARROWS: [Reading; 32] = [
    (LISTING, "{2}", EMPTY),
    (LISTING, "(surface 0 2)", "refused 1 at 13"),
    (LISTING, "(surface 0 3)]", "refused 2"),
    (LISTING, "(surface 0 20)]", "refused 2"),
    (LISTING, "(surface 1 2)]", "refused 2"),
    (LISTING, "(surface 0 02)", "refused 1 at 11"),
    // reserved in 0 2 only
    (LISTING, "(surface 0 2)(module arrow)", "refused 3 at 21"),
    (LISTING, "{2}(postulate arrow nat)", "refused 3 at 34"),
    (LISTING, "{2}(postulate a (pi arrow nat nat))", "refused 3 at 40"),
    (LISTING, "{2}(postulate a (ref arrow))", "refused 3 at 41"),
    (LISTING, "{2}(postulate a arrow)", "refused 1 at 36"),
    (LISTING, "(surface 0 1)(module arrow)", EMPTY),
    (
        LISTING,
        "{H}(postulate arrow nat)(postulate a (pi arrow (ref arrow) (ref arrow)))",
        "nodes 4 declarations 2|0 nat|1 global 0|2 var 0|3 pi 1 2|0 postulate arrow 0|1 postulate a 3",
    ),
    (LISTING, "{H}(postulate a (arrow nat nat))", "refused 1 at 37"),
    // two terms, no name
    (LISTING, "{2}(postulate a (arrow nat nat))", "nodes 3 declarations 1|0 nat|1 nat|2 pi 0 1|0 postulate a 2"),
    (LISTING, "{2}(postulate a (arrow x nat nat))", "refused 1 at 43"),
    (LISTING, "{2}(postulate a (arrow nat))", "refused 1 at 46"),
    (LISTING, "{2}(postulate a (arrow nat nat nat))", "refused 1 at 51"),
    // one more in the codomain, none in the domain; `_` is hidden by none and bound by none
    (
        LISTING,
        "{2}(postulate a (lam x (arrow (ref x) (ref x))))",
        "nodes 4 declarations 1|0 var 0|1 var 1|2 pi 0 1|3 lam 2|0 postulate a 3",
    ),
    (
        LISTING,
        "{2}(postulate a (lam _ (arrow nat (ref _))))",
        "nodes 4 declarations 1|0 nat|1 var 1|2 pi 0 1|3 lam 2|0 postulate a 3",
    ),
    (LISTING, "{2}(postulate a (arrow nat (ref _)))", "refused 5"),
    // a frame like any other: 7 right behind the tag
    (LISTING, "{2}(postulate a \\{511:(arrow nat }nat\\{511:)})", "nodes 1023 declarations 1|.."),
    (LISTING, "{2}(postulate a \\{512:(arrow }(arrow", "refused 7"),
    (LISTING, "{2}(postulate a \\{512:(arrow }(arrow ]", "refused 7"),
    (LISTING, "{2}(postulate a \\{512:(arrow }(arrow]", "refused 1 at 3626"),
    (LISTING, "{2}(postulate a \\{512:(arrow }(arrows", "refused 1 at 3621"),
    (LISTING, "{2}(postulate a \\{512:(arrow }(pi arrow", "refused 3 at 3624"),
    // 8 with its parenthesis, 9, 10
    (with_surface(16), "{2}(postulate a (arrow nat nat", "refused 1 at 50"),
    (with_surface(16), "{2}(postulate a (arrow nat nat)", "refused 8"),
    (with_declarations(4), "{2}(postulate a (arrow nat nat))", "refused 9"),
    (with_core(16), "{2}(postulate a (arrow nat (ref _)))", "refused 10"),
    (with_core(24), "{2}(postulate a (arrow nat (ref _)))", "refused 5"),
];

const fn with_surface(surface: usize) -> Sizes {
    Tables { surface, ..LISTING }
}

const fn with_core(core: usize) -> Sizes {
    Tables { core, ..LISTING }
}

const fn with_declarations(declarations: usize) -> Sizes {
    Tables { declarations, ..LISTING }
}

const fn with_work(work: usize) -> Sizes {
    Tables { work, ..LISTING }
}

const fn rows(count: usize) -> Sizes {
    Tables { surface: count * 8, core: count * 8, ..LISTING }
}

pub fn run() -> ExitCode {
    let mut tally = Tally::default();
    for (sizes, escaped, answer) in all() {
        read_out(&source(escaped), sizes, answer, &mut tally);
    }
    arrow_words(&mut tally);
    for (sizes, source, answer) in limits::readings() {
        if tally.is_hopeless() {
            break;
        }
        read_out(&source, sizes, &answer, &mut tally);
    }
    tally.finish()
}

/// "surface kind 25. Its core row is a pi": both rows, word by word.
fn arrow_words(tally: &mut Tally) {
    let source = source("{2}(postulate a (arrow unit nat))");
    for reader in Reader::ALL {
        let left = load(reader, &source, LISTING, Rubbish::Ones).tables;
        let rows = [&left.surface[16..24], &left.core[16..24]].concat();
        let told = [25, 0, 1, 0, 0, 0, 0, 36, 4, 0, 1, 0, 0, 0, 0, 36];
        let mismatch = differ(&format!("rows of an arrow by {reader}"), format!("{told:?}"), format!("{rows:?}"));
        tally.count(&source, mismatch);
    }
}

/// The sources of all readings.
pub fn sources() -> impl Iterator<Item = Vec<u8>> {
    all().into_iter().map(|(_, escaped, _)| source(escaped))
}

fn all() -> Vec<Reading> {
    [&CARD[..], &FRAMES, &ROWS, &RECORDS, &ORDER, &SCOPE, &ARROWS].concat()
}

fn source(escaped: &str) -> Vec<u8> {
    unescape(&escaped.replace("{H}", HEAD).replace("{2}", HEAD_0_2)).expect("an escaped source")
}

/// Loads, compares every word with what is expected, and the answer with what is written above.
fn read_out(source: &[u8], sizes: Sizes, answer: &str, tally: &mut Tally) {
    if let Some(loaded) = loaded(&Reference::new(source), sizes, Rubbish::Mixed, tally) {
        let mut lines = lines(source, &loaded);
        if answer.ends_with("|..") {
            lines.splice(1.., [String::from("..")]);
        }
        let mismatch = differ(&format!("answer with {sizes:?}"), answer.to_string(), lines.join("|"));
        tally.count(source, mismatch);
    }
}
