//! Short sources: token by token as far as reading goes, and bytes in places of interest.
use answers::answer;
use common::damage::TELLING;
use common::prng::Prng;
use common::unicode::BORDERS;
use common::vocabulary::HEAD;

const WORDS: [&str; 26] = [
    "(",
    ")",
    "surface",
    "module",
    "postulate",
    "transparent",
    "opaque",
    "nat",
    "star",
    "ref",
    "universe",
    "pi",
    "arrow",
    "lam",
    "fst",
    "pair",
    "id",
    "0",
    "1",
    "2",
    "00",
    "m",
    "x",
    "_",
    "-",
    ";",
];

/// How many sources of each length are read on.
const KEPT: usize = 2;
const LONGEST: usize = 22;

/// Sources of up to LONGEST tokens. Those that reading does not refuse before their end are continued by
/// every word; so each place of the grammar meets each word.
pub fn token_by_token(prng: &mut Prng) -> Vec<Vec<u8>> {
    let mut sources = Vec::new();
    let mut open = vec![String::new()];
    for _ in 0..LONGEST {
        let mut longer = Vec::new();
        for start in &open {
            let continued = WORDS.map(|word| continued(start, word));
            sources.extend(continued.iter().map(|source| source.clone().into_bytes()));
            longer.extend(continued.into_iter().filter(|source| is_open(source)));
        }
        open = sample(longer, prng);
    }
    sources
}

/// A space only where two atoms would touch.
fn continued(start: &str, word: &str) -> String {
    let touch = start.ends_with(|last: char| last.is_ascii_alphanumeric() || "_-".contains(last));
    let space = if touch && !["(", ")", ";"].contains(&word) { " " } else { "" };
    format!("{start}{space}{word}")
}

/// Whether reading gets to the end of a source: it may be continued by more tokens.
fn is_open(source: &str) -> bool {
    let answer = answer(source.as_bytes());
    let at_end = answer == format!("refused 1 at {}", source.len());
    (at_end || answer.starts_with("nodes")) && !source.ends_with(';')
}

fn sample(mut sources: Vec<String>, prng: &mut Prng) -> Vec<String> {
    while sources.len() > KEPT {
        sources.swap_remove(prng.below(sources.len()));
    }
    sources
}

/// Every byte behind the head and inside an atom; telling bytes alone, in a comment, and where an atom starts.
pub fn bytes_in_places() -> Vec<Vec<u8>> {
    let every: Vec<u8> = (0..=255).collect();
    let telling = [TELLING, &BORDERS].concat();
    let places: [(&[u8], &str, &str); 5] = [
        (&every, HEAD, ""),
        (&every, "(surface 0 1)(module m)(postulate a", "b nat)"),
        (&telling, "", ""),
        (&telling, ";", "\n(surface 0 1)(module m)"),
        (&telling, "(surface 0 1)(module m)(postulate ", " nat)"),
    ];
    let sources = places.iter().flat_map(|(bytes, before, after)| {
        let around = move |byte: &u8| [before.as_bytes(), &[*byte], after.as_bytes()].concat();
        bytes.iter().map(around)
    });
    sources.collect()
}
