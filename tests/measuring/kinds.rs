//! The kinds of sources that are measured, each with what is asked of loading it.
use crate::sources::declared::{headed, late, longer, tailed};
use crate::sources::{declared, forms, layout, locals, marks, random, short};

/// Short, medium and long.
pub const SIZES: [usize; 3] = [1_000, 8_000, 64_000];

pub struct Kind {
    pub name: &'static str,
    /// What its sources are, for a reader of the tables.
    pub about: &'static str,
    /// How many times fewer instructions than the Rust loading is to take.
    pub goal: f64,
    pub sizes: &'static [usize],
    /// A module of at most so many bytes, which is accepted.
    pub source: fn(usize) -> String,
}

const fn kind(name: &'static str, about: &'static str, goal: f64, source: fn(usize) -> String) -> Kind {
    Kind { name, about, goal, sizes: &SIZES, source }
}

/// What is asked of a kind that only must not be behind, and of sources as they are usually written.
const EVEN: f64 = 1.0;
const USUAL: f64 = 2.5;

pub const KINDS: [Kind; 31] = [
    Kind { sizes: &[100], ..kind("tiny", "100 bytes in all", EVEN, short::tiny) },
    kind("short", "many short declarations, `(postulate a7 nat)`", USUAL, short::short),
    kind("densest", "the same with the shortest names there are", USUAL, short::densest),
    kind("universes", "`(pi _ (universe 7) (universe 8))` in each declaration", EVEN, short::universes),
    kind("random-tight", "random modules, no byte of layout to spare", USUAL, random::tight),
    kind("random-spaced", "the same, a space before every word and form", USUAL, random::spaced),
    kind("random-comments", "the same, a line of comment before each declaration", USUAL, random::comments),
    kind("random-wild", "the same, any layout and comments between any two tokens", USUAL, random::wild),
    kind("previous", "each declaration refers to the one before", EVEN, declared::previous),
    kind("last", "many short declarations, then many references to the last of them", EVEN, declared::last),
    kind("first", "the same with references to the first of them", EVEN, declared::first),
    kind("marks", "names of 5 bytes made to share one mark in `crates/scope`", EVEN, marks::short),
    kind("marks-heads", "names of 40 bytes made to share one mark and a head of 35", EVEN, marks::long),
    kind(
        "names",
        "names of 45 to 47 bytes that share a tail, each declaration refers to an earlier one",
        EVEN,
        declared::names,
    ),
    kind("heads", "names of 100 bytes that share a head", EVEN, declared::heads),
    kind("tails", "names of 100 bytes that share a tail", EVEN, declared::tails),
    kind(
        "long-references",
        "names of 100 bytes that share a head, each declaration refers to an earlier one",
        EVEN,
        declared::long_references,
    ),
    kind("tails-40", "names of 40 bytes that share a tail, then references to the last eight of them", EVEN, |size| {
        late(size, 40, tailed)
    }),
    kind("tails-200", "the same with names of 200 bytes", EVEN, |size| late(size, 200, tailed)),
    kind("heads-40", "names of 40 bytes that share a head, then references to the last eight of them", EVEN, |size| {
        late(size, 40, headed)
    }),
    kind("heads-200", "the same with names of 200 bytes", EVEN, |size| late(size, 200, headed)),
    kind(
        "lengths-40",
        "names of 40 bytes and more that differ in length alone, then references to the last eight of them",
        EVEN,
        |size| late(size, 40, longer),
    ),
    kind("lengths-200", "the same with names of 200 bytes and more", EVEN, |size| late(size, 200, longer)),
    kind(
        "locals",
        "500 nested `lam` around references to the outermost, whose name has another length than all others",
        EVEN,
        locals::other_lengths,
    ),
    kind("locals-alike", "the same with names of one length", EVEN, locals::one_length),
    kind("deep", "400 nested `pi` and `app`, each binder used", EVEN, forms::deep),
    kind("nested-fst", "512 nested `fst`", EVEN, forms::nested_fst),
    kind("wide-j", "`j` forms of six arguments, three deep", EVEN, forms::wide_j),
    kind("layout", "short declarations with much layout", EVEN, layout::blank),
    kind("comments", "short declarations with comments and layout", EVEN, layout::comments),
    kind("unicode", "short declarations with comments that are not ASCII", EVEN, layout::unicode),
];

pub fn kind_of(name: &str) -> Option<&'static Kind> {
    KINDS.iter().find(|kind| kind.name == name)
}
