//! answers.txt: sources with the Rust's answer to loading.
use super::{bounds, card, short};
use answers::answer;
use common::alter::alter;
use common::damage::damaged;
use common::lists::Draft;
use common::modules::{Shape, generate};
use common::printing::{Layout, print};
use common::prng::Prng;
use common::renaming::rename_binders;
use common::unicode::{CHARACTERS, FAULTS, MARK, encoded};
use common::vocabulary::{ARROW, Edition, FORMS, HEAD, LEAVES, NO_NAMES, ORDINARY_NAMES, RESERVED};

const LAYOUTS: [Layout; 3] = [Layout::Tight, Layout::Spaced, Layout::Wild];

/// Good files: every beginning of each is a source too.
const GOOD: [&str; 7] = [
    "(surface 0 1)(module m)(postulate x nat)(postulate y (pi x (ref x) (ref x)))",
    ";é\r;\n(surface 0;1\n1)\t(module _)\r\n(opaque f (pi A (universe 0) (ref A)) (lam A (ref A))) ; end",
    "(surface 0 1)(module j1)(transparent a (j nat unit star zero empty (universe 12)) (nat-elim zero zero zero zero))",
    "(surface 0 1)(module m)(postulate a nat)(postulate a (ref q))",
    "(surface 0 1)(module m)(postulate a (sigma x nat (id nat (ref x) (ref y))))",
    "(surface 0 1)(module m)(transparent t unit (ann (unit-elim unit star star) (empty-elim nat (ref t))))",
    "(surface 0 2)(module m)(opaque f (arrow nat (pi y (arrow unit nat) (id nat (ref y) zero))) (lam x (ref x)))",
];

pub fn fill(draft: &mut Draft, prng: &mut Prng) {
    draft.comment("");
    draft.comment("Sources that keep document 01's limits and fit into the listing's tables.");
    by_hand(draft);
    fitting(draft, words_in_places());
    fitting(draft, numerals_in_places());
    fitting(draft, argument_counts());
    fitting(draft, text_in_places());
    fitting(draft, short::bytes_in_places());
    fitting(draft, short::token_by_token(prng));
    fitting(draft, beginnings());
    fitting(draft, damaged_files(prng, 600));
    fitting(draft, modules(prng, &Shape::accepted(), 480));
    fitting(draft, modules(prng, &Shape::doubtful(), 420));
    fitting(draft, shaped_modules(prng, 12));
    fitting(draft, renamed_modules(prng, 60));
    fitting(draft, bounds::within());
    for (class, sources) in bounds::beyond() {
        draft.comment("");
        draft.comment(&format!("Sources that document 01's listing refuses with {class}: the Rust has no such limit."));
        draft.sources(sources);
    }
}

/// Takes sources that the listing can answer as the Rust does.
fn fitting<S: AsRef<[u8]>>(draft: &mut Draft, sources: Vec<S>) {
    for source in &sources {
        assert!(source.as_ref().len() <= 65_535, "refused 6");
        if let ["nodes", rows, "declarations", count] = first_line(&answer(source.as_ref()))[..] {
            let at_most = |limit| move |number: usize| number <= limit;
            assert!(rows.parse().is_ok_and(at_most(1024)), "refused 8");
            assert!(count.parse().is_ok_and(at_most(256)), "refused 9");
        }
    }
    draft.sources(sources);
}

fn first_line(answer: &str) -> Vec<&str> {
    let line = answer.split('|').next().unwrap_or_default();
    line.split(' ').collect()
}

/// The sources with document 01's answer, which must be the Rust's.
fn by_hand(draft: &mut Draft) {
    use card::{CARD, EDITION, ENCODING, NAMES, READING, SCOPE, TOKENS, VERSION};
    for (escaped, expected) in [CARD, ENCODING, TOKENS, VERSION, NAMES, READING, SCOPE, EDITION].concat() {
        let source = card::source(escaped);
        assert_eq!(answer(&source), expected, "the Rust's answer and document 01's on {escaped}");
        draft.source(&source);
    }
}

/// Each word as a module's, declaration's, binder's and reference's name, as a leaf and as a tag. In 0 2 `arrow` and its like.
fn words_in_places() -> Vec<String> {
    const LIKE_ARROW: [&str; 10] =
        ["arrow", "Arrow", "ARROW", "arro", "rrow", "arrows", "arrow_", "arrow-", "_arrow", "arrow0"];
    let places = |edition: Edition, word: &str| {
        let [major, minor] = edition.version();
        let head = edition.head();
        [
            format!("(surface {major} {minor})(module {word})"),
            format!("{head}(postulate {word} nat)"),
            format!("{head}(postulate a (pi {word} nat (ref {word})))"),
            format!("{head}(postulate a (ref {word}))"),
            format!("{head}(postulate a {word})"),
            format!("{head}(postulate a ({word}"),
            format!("{head}({word} a"),
        ]
    };
    let words = RESERVED.iter().chain(&ORDINARY_NAMES).chain(&NO_NAMES);
    let first = words.flat_map(|word| places(Edition::First, word));
    first.chain(LIKE_ARROW.iter().flat_map(|word| places(Edition::Second, word))).collect()
}

fn numerals_in_places() -> Vec<String> {
    let numerals = [
        "0",
        "1",
        "2",
        "9",
        "10",
        "00",
        "01",
        "0_",
        "1a",
        "a1",
        "-1",
        "1-",
        "007",
        "4294967295",
        "4294967296",
        "18446744073709551615",
        "18446744073709551616",
        "340282366920938463463374607431768211456",
    ];
    let places = |numeral: &str| {
        [
            format!("(surface {numeral} 1)(module m)"),
            format!("(surface 0 {numeral})(module m)"),
            format!("{HEAD}(postulate a (universe {numeral}))"),
        ]
    };
    numerals.into_iter().flat_map(places).collect()
}

/// Each form with no argument up to one too many, closed and not.
fn argument_counts() -> Vec<String> {
    let mut sources = Vec::new();
    let forms = FORMS.iter().map(|form| (HEAD, form)).chain([(Edition::Second.head(), &ARROW)]);
    for (head, form) in forms {
        let binder = if form.binds { " x" } else { "" };
        for count in 0..=form.arity + 1 {
            let args: String = (0..count).map(|at| format!(" {}", LEAVES[at % LEAVES.len()])).collect();
            sources.push(format!("{head}(postulate a ({}{binder}{args}))", form.word));
            sources.push(format!("{head}(postulate a ({}{binder}{args}", form.word));
        }
        // a binder's name where the form has none, and none where it has one
        let other = if form.binds { "" } else { " x" };
        sources.push(format!("{head}(postulate a ({}{other}{}))", form.word, " nat".repeat(form.arity)));
    }
    sources
}

/// Characters and broken sequences in comments, in an atom, and behind a mark.
fn text_in_places() -> Vec<Vec<u8>> {
    let head = HEAD.as_bytes();
    let faults = FAULTS.iter().map(|fault| fault.to_vec());
    let texts = faults.chain(CHARACTERS.iter().map(|character| encoded(*character)));
    let places = |text: Vec<u8>| {
        [
            [b";", &text[..], b"\n", head].concat(),
            [head, b";", &text].concat(),
            [head, b"(postulate a", &text, b" nat)"].concat(),
            [MARK, head, b";", &text].concat(),
        ]
    };
    texts.flat_map(places).collect()
}

fn beginnings() -> Vec<Vec<u8>> {
    let all = GOOD.iter().flat_map(|file| (0..=file.len()).map(|end| file.as_bytes()[..end].to_vec()));
    all.collect()
}

fn damaged_files(prng: &mut Prng, count: usize) -> Vec<Vec<u8>> {
    let mut sources = Vec::new();
    for at in 0..count {
        let source = if at % 2 == 0 {
            GOOD[at / 2 % GOOD.len()].as_bytes().to_vec()
        } else {
            let module = generate(prng, &Shape::accepted());
            print(&module, LAYOUTS[at % 3], prng)
        };
        sources.push(damaged(&source, prng));
    }
    sources
}

fn modules(prng: &mut Prng, shape: &Shape, count: usize) -> Vec<Vec<u8>> {
    let known = shape.unknown == 0 && shape.duplicates == 0;
    let print_one = |at: usize| {
        let module = generate(prng, shape);
        let source = print(&module, LAYOUTS[at % 3], prng);
        assert!(!known || answer(&source).starts_with("nodes"), "a module whose names are known is accepted");
        source
    };
    (0..count).map(print_one).collect()
}

/// Modules of other shapes: deep, wide, many declarations, many hidden names, long names and numerals.
fn shaped_modules(prng: &mut Prng, count: usize) -> Vec<Vec<u8>> {
    let base = Shape::accepted();
    let shapes = [
        Shape { depth: 40, size: 60, ..base.clone() },
        Shape { depth: 3, size: 60, ..base.clone() },
        Shape { declarations: 40, size: 2, names: 10, ..base.clone() },
        Shape { depth: 12, size: 30, names: 1, ..base.clone() },
        Shape { depth: 12, size: 30, names: 2, unknown: 2, ..base.clone() },
        Shape { length: 60, ..base.clone() },
        Shape { declarations: 20, size: 4, names: 12, duplicates: 5, ..base },
    ];
    shapes.iter().flat_map(|shape| modules(prng, shape, count)).collect()
}

/// Pairs with the same core, and a third that is nearly so.
fn renamed_modules(prng: &mut Prng, count: usize) -> Vec<Vec<u8>> {
    let mut sources = Vec::new();
    for _ in 0..count {
        let module = generate(prng, &Shape { depth: 6, size: 12, names: 3, ..Shape::accepted() });
        let renamed = rename_binders(&module, prng);
        let pair = [print(&module, Layout::Wild, prng), print(&renamed, Layout::Tight, prng)];
        assert_eq!(answer(&pair[0]), answer(&pair[1]), "renamed binders change nothing");
        let mut altered = module;
        alter(&mut altered, prng);
        sources.extend(pair);
        sources.push(print(&altered, Layout::Spaced, prng));
    }
    sources
}
