//! Every byte, runs of layout, comments and names in the places of small modules, against document 01 and the Rust: where
//! the class of one byte tells, and where bytes that may be passed over in blocks begin and end. Nothing here is random.
use super::check::loaded;
use super::expected::Reference;
use super::sizes::exact;
use super::tables::Rubbish;
use common::tally::Tally;
use common::vocabulary::{ARROW, HEAD, HEAD_0_2, NO_NAMES, ORDINARY_NAMES, RESERVED};
use std::process::ExitCode;

/// Runs, comments and names have up to so many bytes: some blocks of eight and of sixteen.
const LONGEST: usize = 40;
/// Another byte stands in a run of layout at the places before this one.
const PLACES: usize = 18;

/// Modules of which every byte is changed. The comment has more than eighteen.
const MODULES: [&str; 2] = [
    "{H};a comment of 20 byte\n\
    (postulate k nat)(opaque abc (pi xyz (ref k)(universe 120)) (lam y (ref y)))",
    "{2}(opaque k (arrow nat(arrow;\nnat unit)) (lam y (arrow (ref y) (ref y))))",
];
const CHARACTERS: [&str; 7] = ["\u{e9}", "\u{2200}", "\u{1d11e}", "\u{a0}", "\u{85}", "\u{2028}", "\u{feff}"];

/// Layout at `~`: at both ends, before numerals, names, words and parentheses.
const LAYOUT: [&str; 14] = [
    "~{H}",
    "(surface~0 1)(module m)",
    "(surface 0 1)(module~m)",
    "{H}~(postulate k nat)",
    "{H}(~postulate k nat)",
    "{H}(postulate~k nat)",
    "{H}(postulate k~nat)",
    "{H}(postulate k nat~)",
    "{H}(postulate k (pi~x nat (ref x)))",
    "{H}(postulate k (lam x~(ref x)))",
    "{H}(postulate k (lam x (ref~x)))",
    "{H}(postulate k (lam x (ref x~)))",
    "{H}(postulate k (universe~12))",
    "{H}(postulate k nat)~",
];
const OTHERS: [&str; 9] = ["\t", "\n", "\r", ";c\n", ";a longer comment\n", "a", "(", ")", "["];
/// A comment stands before a name.
const COMMENTED: &str = "{H}(postulate~k nat)";
const IN_COMMENTS: [&str; 6] = ["\n", "\r", ";", "(", "\0", "\u{e9}"];
/// A comment of some blocks of 64 bytes, in which UTF-8 is told, and what is not ASCII in it: characters, and what is no UTF-8.
const LONG_COMMENT: usize = 150;
const IN_LONG_COMMENTS: [&[u8]; 6] = [b"\xc3\xa9", b"\xe2\x88\x80", b"\xf0\x9d\x84\x9e", b"\x80", b"\xe2\x88", b"\xff"];

/// A name behind layout at `~`, and a reference to it.
const NAMED: [&str; 7] = [
    "(surface 0 2)(module~)",
    "{2}(postulate b (lam~ (arrow nat (ref~))))",
    "(surface 0 1)(module~)",
    "{H}(postulate~ nat)(postulate b (ref~))",
    "{H}(opaque~\nnat zero)(postulate b (ref~\n))",
    "{H}(postulate b (pi~ nat (ref~)))",
    "{H}(postulate b (lam~\n(ref~\n)))",
];
/// A name that ends the source.
const ENDED: [&str; 5] = [
    "(surface 0 1)(module~",
    "(surface 0 2)(module~",
    "{H}(postulate~",
    "{H}(postulate b (pi~",
    "{H}(postulate b (ref~",
];
const BEFORE_NAMES: [&str; 2] = [" ", "  ;c\n"];
const IN_NAMES: [&str; 7] = ["7", "_", "-", "Z", "[", ";", "("];
/// A word at `~`: of a declaration, of a form, and by itself; one of them is at the source's end.
const WORDED: [&str; 11] = [
    "{2}(~ k nat)",
    "{2}(postulate k ~)",
    "{2}(postulate k (~ nat nat))",
    "{2}(postulate k (~",
    "{H}(~ k nat)",
    "{H}(~ k nat zero)",
    "{H}(postulate k ~)",
    "{H}(postulate k (~ nat))",
    "{H}(postulate k (~ x nat nat))",
    "{H}(postulate k (~ 0))",
    "{H}(postulate k (~",
];
/// Lengths of names, and a place in each, for every byte.
const NAME_PLACES: [(usize, usize); 8] = [(1, 0), (3, 0), (3, 1), (3, 2), (17, 7), (17, 8), (17, 15), (17, 16)];

pub fn run() -> ExitCode {
    let mut comparison = Comparison { tally: Tally::default(), answers: [0; 6] };
    visit_all(|source| comparison.check(source));
    comparison.finish()
}

/// Visits every source of this part, and prints how many there are of each sort.
pub fn visit_all(visit: impl FnMut(&[u8])) {
    let mut sources = Sources { by: visit, visited: 0 };
    sources.part("reserved words and their like as names", |sources| sources.words(Sources::named));
    sources.part("the same as words", |sources| sources.words(Sources::worded));
    sources.part("comments", Sources::comments);
    sources.part("long comments", Sources::long_comments);
    sources.part("every byte in names", Sources::bytes_of_names);
    sources.part("names with one other byte", Sources::names);
    sources.part("runs of layout", Sources::layout);
    sources.part("every byte in every place of two modules", Sources::bytes);
}

struct Sources<Visit> {
    by: Visit,
    visited: usize,
}

impl<Visit: FnMut(&[u8])> Sources<Visit> {
    fn part(&mut self, what: &str, part: impl Fn(&mut Self)) {
        let before = self.visited;
        part(self);
        println!("{what}: {}", self.visited - before);
    }

    fn visit(&mut self, source: &[u8]) {
        self.visited += 1;
        (self.by)(source);
    }

    fn bytes(&mut self) {
        for (other, module) in every().iter().flat_map(|other| MODULES.map(|module| (other, filled(module, b"")))) {
            for at in 0..=module.len() {
                self.visit(&[&module[..at], other, &module[at..]].concat());
                if at < module.len() {
                    self.visit(&[&module[..at], other, &module[at + 1..]].concat());
                }
            }
        }
    }

    fn bytes_of_names(&mut self) {
        for other in every() {
            for (length, at) in NAME_PLACES {
                self.named(&replaced(&name(length), at, &other));
            }
        }
    }

    fn layout(&mut self) {
        for length in 0..=LONGEST {
            for byte in b" \t\n\r" {
                self.everywhere(&vec![*byte; length]);
            }
            for at in 0..length.min(PLACES) {
                let spaces = OTHERS.map(|other| replaced(&vec![b' '; length], at, other.as_bytes()));
                let tabs = replaced(&vec![b'\t'; length], at, b" ");
                for run in spaces.into_iter().chain([tabs]) {
                    LAYOUT.iter().for_each(|module| self.visit(&filled(module, &run)));
                }
            }
        }
    }

    fn comments(&mut self) {
        for length in 0..=LONGEST {
            let text = vec![b'c'; length];
            self.everywhere(&comment(&text));
            for at in 0..length {
                for other in IN_COMMENTS {
                    let comment = comment(&replaced(&text, at, other.as_bytes()));
                    self.visit(&filled(COMMENTED, &comment));
                }
            }
        }
    }

    fn long_comments(&mut self) {
        let text = vec![b'c'; LONG_COMMENT];
        for at in 0..LONG_COMMENT {
            for other in IN_LONG_COMMENTS {
                self.visit(&filled(COMMENTED, &comment(&replaced(&text, at, other))));
            }
        }
    }

    fn names(&mut self) {
        for length in 1..=LONGEST {
            for at in 0..length {
                IN_NAMES.iter().for_each(|other| self.named(&replaced(&name(length), at, other.as_bytes())));
            }
        }
    }

    fn words(&mut self, check: impl Fn(&mut Self, &[u8])) {
        for word in RESERVED.into_iter().chain([ARROW.word]) {
            let mut like = vec![word.to_string(), word[1..].to_string(), word[..word.len() - 1].to_string()];
            like.extend(["a", "Z", "0", "_", "-", "-elim"].map(|more| format!("{word}{more}")));
            like.extend(["a", "Z", "0", "_", "-", "nat-"].map(|more| format!("{more}{word}")));
            like.extend([word.to_uppercase(), word.replace('-', "_"), word.replace('-', ""), word.replace('-', "--")]);
            like.iter().for_each(|word| check(self, word.as_bytes()));
        }
        ORDINARY_NAMES.iter().chain(&NO_NAMES).for_each(|word| check(self, word.as_bytes()));
    }

    /// Layout in every place, and as the last bytes of the source.
    fn everywhere(&mut self, layout: &[u8]) {
        for module in LAYOUT {
            self.visit(&filled(module, layout));
            let beginning = module.split('~').next().expect("a beginning");
            self.visit(&[&filled(beginning, b"")[..], layout].concat());
        }
    }

    /// A name in every place, behind layout of each sort, and as the last bytes of the source.
    fn named(&mut self, name: &[u8]) {
        for before in BEFORE_NAMES {
            NAMED.iter().for_each(|module| self.visit(&filled(module, &[before.as_bytes(), name].concat())));
        }
        ENDED.iter().for_each(|module| self.visit(&filled(module, &[b" ", name].concat())));
    }

    /// A word in every place, with no layout before it and with some.
    fn worded(&mut self, word: &[u8]) {
        for before in ["", " ", "\n  "] {
            WORDED.iter().for_each(|module| self.visit(&filled(module, &[before.as_bytes(), word].concat())));
        }
    }
}

struct Comparison {
    tally: Tally,
    /// How often each class came, and acceptance as 0. Tables suffice, so that none above 5 comes.
    answers: [usize; 6],
}

impl Comparison {
    /// Loads with tables of exactly the sizes that reading needs.
    fn check(&mut self, source: &[u8]) {
        if self.tally.is_hopeless() {
            return;
        }
        let reference = Reference::new(source);
        let rubbish = Rubbish::ALL[self.answers.iter().sum::<usize>() % Rubbish::ALL.len()];
        if let Some(loaded) = loaded(&reference, exact(reference.need()), rubbish, &mut self.tally) {
            self.answers[usize::from(loaded.class)] += 1;
        }
    }

    /// Every class from 1 to 5 must have come.
    fn finish(mut self) -> ExitCode {
        println!("accepted {}, refused by class from 1 {:?}", self.answers[0], &self.answers[1..]);
        if self.answers.contains(&0) {
            self.tally.broken("some answer never came");
        }
        self.tally.finish()
    }
}

/// Every byte, most of those above 127 not UTF-8 by itself, and characters of two, three and four bytes.
fn every() -> Vec<Vec<u8>> {
    let bytes = (0..=u8::MAX).map(|byte| vec![byte]);
    bytes.chain(CHARACTERS.map(|character| character.as_bytes().to_vec())).collect()
}

/// A module with these bytes in the place of each `~`, and a head where `{H}` or `{2}` stands.
fn filled(module: &str, bytes: &[u8]) -> Vec<u8> {
    let module = module.replace("{H}", HEAD).replace("{2}", HEAD_0_2);
    let parts: Vec<&[u8]> = module.as_bytes().split(|byte| *byte == b'~').collect();
    parts.join(bytes)
}

/// The bytes with others in the place of one.
fn replaced(bytes: &[u8], at: usize, other: &[u8]) -> Vec<u8> {
    [&bytes[..at], other, &bytes[at + 1..]].concat()
}

fn comment(text: &[u8]) -> Vec<u8> {
    [b";", text, b"\n"].concat()
}

/// A name of so many bytes that is not reserved.
fn name(length: usize) -> Vec<u8> {
    b"kQ_z7".iter().copied().cycle().take(length).collect()
}
