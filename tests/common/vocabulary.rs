//! Document 01's words: the reserved ones in its order, leaves, forms with term arguments, names and numerals.
use crate::prng::Prng;

pub const HEAD: &str = "(surface 0 1)(module m)";
/// The same of edition 0 2.
pub const HEAD_0_2: &str = "(surface 0 2)(module m)";

/// The editions of the surface format.
#[derive(Clone, Copy, Debug, Eq, PartialEq)]
pub enum Edition {
    First,
    Second,
}

impl Edition {
    pub const BOTH: [Self; 2] = [Self::First, Self::Second];

    /// The edition that a version names.
    pub fn of(version: [&str; 2]) -> Option<Self> {
        Self::BOTH.into_iter().find(|edition| edition.version() == version)
    }

    pub const fn version(self) -> [&'static str; 2] {
        match self {
            Self::First => ["0", "1"],
            Self::Second => ["0", "2"],
        }
    }

    /// The head of a module named m.
    pub const fn head(self) -> &'static str {
        match self {
            Self::First => HEAD,
            Self::Second => HEAD_0_2,
        }
    }

    /// "`arrow` is reserved in 0 2 only".
    pub fn reserves_arrow(self, word: &str) -> bool {
        self == Self::Second && word == ARROW.word
    }

    /// A form with term arguments by its tag.
    pub fn form(self, word: &str) -> Option<&'static Form> {
        if self.reserves_arrow(word) { Some(&ARROW) } else { FORMS.iter().find(|form| form.word == word) }
    }

    /// One of the first so many of FORMS or, in 0 2, every now and then an arrow.
    pub fn any_form(self, from: usize, prng: &mut Prng) -> &'static Form {
        if self == Self::Second && prng.chance(25) { &ARROW } else { &FORMS[prng.below(from)] }
    }

    /// One of ORDINARY_NAMES that is ordinary in this edition.
    pub fn ordinary_name(self, prng: &mut Prng) -> &'static str {
        let name = *prng.pick(&ORDINARY_NAMES);
        if self.reserves_arrow(name) { "Arrow" } else { name }
    }
}

pub const RESERVED: [&str; 27] = [
    "surface",
    "module",
    "postulate",
    "transparent",
    "opaque",
    "ref",
    "universe",
    "pi",
    "lam",
    "app",
    "sigma",
    "pair",
    "fst",
    "snd",
    "id",
    "refl",
    "j",
    "empty",
    "empty-elim",
    "unit",
    "star",
    "unit-elim",
    "nat",
    "zero",
    "succ",
    "nat-elim",
    "ann",
];

/// The words of a row's kinds, from kind 1. The last two stand in surface rows alone.
pub const KINDS: [&str; 25] = [
    "var",
    "global",
    "universe",
    "pi",
    "lam",
    "app",
    "sigma",
    "pair",
    "fst",
    "snd",
    "id",
    "refl",
    "j",
    "empty",
    "empty-elim",
    "unit",
    "star",
    "unit-elim",
    "nat",
    "zero",
    "succ",
    "nat-elim",
    "ann",
    "ref",
    "arrow",
];

/// The words of a declaration's kinds, from kind 1.
pub const DECLARATION_KINDS: [&str; 3] = ["postulate", "transparent", "opaque"];

/// A word's kind number in one of the lists above.
pub fn kind_number(kinds: &[&str], word: &str) -> Option<u32> {
    let place = kinds.iter().position(|kind| *kind == word)?;
    Some(place as u32 + 1)
}

pub const LEAVES: [&str; 5] = ["empty", "unit", "star", "nat", "zero"];

/// A form with term arguments.
#[derive(Debug, PartialEq)]
pub struct Form {
    pub word: &'static str,
    pub binds: bool,
    pub arity: usize,
}

const fn form(word: &'static str, binds: bool, arity: usize) -> Form {
    Form { word, binds, arity }
}

impl Form {
    /// The word of its core row: "its core row is a pi".
    pub fn core_word(&self) -> &'static str {
        if self.word == ARROW.word { "pi" } else { self.word }
    }

    /// Whether its last argument counts one binder more, with a name or none.
    pub fn counts(&self) -> bool {
        self.binds || self.word == ARROW.word
    }
}

/// The form that 0 2 has besides FORMS.
pub static ARROW: Form = form("arrow", false, 2);

/// The form that an arrow stands for.
pub fn pi() -> &'static Form {
    &FORMS[0]
}

/// The first so many of FORMS bind a name.
pub const BINDING: usize = 3;

pub static FORMS: [Form; 15] = [
    form("pi", true, 2),
    form("sigma", true, 2),
    form("lam", true, 1),
    form("app", false, 2),
    form("pair", false, 2),
    form("fst", false, 1),
    form("snd", false, 1),
    form("id", false, 3),
    form("refl", false, 1),
    form("j", false, 6),
    form("empty-elim", false, 2),
    form("unit-elim", false, 3),
    form("succ", false, 1),
    form("nat-elim", false, 4),
    form("ann", false, 2),
];

/// Names that look reserved, or look alike, and are ordinary, `arrow` in 0 1 only.
pub const ORDINARY_NAMES: [&str; 24] = [
    "_",
    "x",
    "y",
    "X",
    "__",
    "_0",
    "x1",
    "Nat",
    "NAT",
    "nat_elim",
    "natx",
    "na",
    "var",
    "global",
    "arrow",
    "hott_core",
    "Surface",
    "j_",
    "J",
    "i",
    "refll",
    "pI",
    "star1",
    "format",
];

/// Atoms that are no names.
pub const NO_NAMES: [&str; 12] =
    ["-", "--", "a-b", "-a", "a-", "0", "1a", "00", "0x", "nat-eli", "nat-elim-", "unit_-elim"];

/// An identifier that is not reserved.
pub fn name(prng: &mut Prng, length: usize) -> String {
    const FIRST: &[u8] = b"abcxyzABCXYZ_";
    const LATER: &[u8] = b"abcxyzABCXYZ_0189";
    loop {
        let mut text = String::new();
        for at in 0..length.max(1) {
            let from = if at == 0 { FIRST } else { LATER };
            text.push(char::from(*prng.pick(from)));
        }
        if !RESERVED.contains(&text.as_str()) {
            return text;
        }
    }
}

/// A numeral of a number of digits, without a leading 0 unless it is `0`.
pub fn numeral(prng: &mut Prng, digits: usize) -> String {
    let mut text = String::new();
    for at in 0..digits.max(1) {
        let least = usize::from(at == 0 && digits > 1);
        text.push(char::from(b'0' + prng.between(least, 9) as u8));
    }
    text
}
