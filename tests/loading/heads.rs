//! Sources for the module's name: heads in any layout, good and nearly good, with anything before and behind them.
use common::prng::Prng;
use common::refusal::Refusal;
use common::unicode::{FAULTS, MARK};
use common::vocabulary::{Edition, NO_NAMES, ORDINARY_NAMES, RESERVED, name};

const LONGEST: usize = 65_535;

/// A source, and where its name starts and its length, or the refusal.
type Reading = (Vec<u8>, Result<[usize; 2], Refusal>);

/// Written out: what is easily misread.
pub fn readings() -> Vec<Reading> {
    let head = |rest: &[u8]| [b"(surface 0 1)(module m)", rest].concat();
    let named = Ok([21, 1]);
    let six = Err(Refusal::nowhere(6));
    let one = |at| Err(Refusal::at(1, at));
    // a comment of so many bytes before the module line, so that the head ends there
    let ending = |end: usize| [b"(surface 0 1);".to_vec(), vec![b'c'; end - 25], b"\n(module m)".to_vec()].concat();
    let reserved = || b"(surface 0 1)(module nat)".to_vec();
    vec![
        (head(b""), named),
        (head(b"]"), named),
        (head(b"\xff"), named),
        (head(b"(postulate m nat)(postulate m nat)"), named),
        (head(b"(postulate x (ref q))"), named),
        (head(&[b' '; 70_000]), named),
        (head(&[0; 70_000]), named),
        (b";\xc3\xa9\n(surface 0 1) (module a_1 ) x".to_vec(), Ok([26, 3])),
        (b"(surface 0 1)(module m;\xff\n)".to_vec(), one(23)),
        (b"(surface 0 1)(module m);\xff\n".to_vec(), named),
        (b"(surface 0 1)(module m".to_vec(), one(22)),
        (Vec::new(), one(0)),
        (b"(surface 1 0) ]".to_vec(), Err(Refusal::nowhere(2))),
        (b"(surface 1 0) \xff".to_vec(), one(14)),
        (b"(surface 0 1)(module a-b)".to_vec(), one(21)),
        (reserved(), Err(Refusal::at(3, 21))),
        ([reserved(), vec![b' '; LONGEST - 25]].concat(), Err(Refusal::at(3, 21))),
        ([reserved(), vec![b' '; LONGEST - 24]].concat(), six),
        ([reserved(), b";\xc3".to_vec()].concat(), one(26)),
        ([MARK, &head(b"")].concat(), one(0)),
        ([MARK, &head(b"\xff")].concat(), one(26)),
        ([b"]".to_vec(), vec![b' '; LONGEST - 1]].concat(), one(0)),
        ([b"]".to_vec(), vec![b' '; LONGEST]].concat(), six),
        (ending(LONGEST), Ok([LONGEST - 2, 1])),
        ([ending(LONGEST), b")".to_vec()].concat(), Ok([LONGEST - 2, 1])),
        ([ending(LONGEST), vec![b'\xff'; 5_000]].concat(), Ok([LONGEST - 2, 1])),
        (ending(LONGEST + 1), six),
        ([ending(LONGEST + 1), b" ".to_vec()].concat(), six),
        // edition 0 2
        (b"(surface 0 2)(module m)".to_vec(), named),
        (b"(surface 0 2)(module m)(postulate a (arrow".to_vec(), named),
        (b"(surface 0 2)(module arrow)".to_vec(), Err(Refusal::at(3, 21))),
        (b"(surface 0 2)(module arrow".to_vec(), Err(Refusal::at(3, 21))),
        (b"(surface 0 2)(module arrow]".to_vec(), one(26)),
        (b"(surface 0 2)(module arrows)".to_vec(), Ok([21, 6])),
        (b"(surface 0 1)(module arrow)".to_vec(), Ok([21, 5])),
        (b"(surface 0 2)".to_vec(), one(13)),
        (b"(surface 0 2) \xff".to_vec(), one(14)),
        (b"(surface 0 02)(module m)".to_vec(), one(11)),
        (b"(surface 0 3)(module m)".to_vec(), Err(Refusal::nowhere(2))),
        (b"(surface 1 2)(module m)".to_vec(), Err(Refusal::nowhere(2))),
        (b"(surface 0 20)(module m)".to_vec(), Err(Refusal::nowhere(2))),
    ]
}

/// A head, good or nearly so, and what stands around it.
pub fn source(prng: &mut Prng) -> Vec<u8> {
    let before: &[u8] = match prng.below(20) {
        0 => MARK,
        1 => &MARK[..2],
        2 => b"\xff",
        3 => b"]",
        _ => b"",
    };
    let tokens = tokens(prng);
    [before, &joined(&tokens, None, prng), &tail(prng)].concat()
}

/// The same, with a gap so long that the head ends around the longest source's last byte.
pub fn long(prng: &mut Prng) -> Vec<u8> {
    let tokens = tokens(prng);
    let end = prng.between(LONGEST - 2, LONGEST + 3);
    let mut filled = joined(&tokens, Some(end), prng);
    filled.extend(tail(prng));
    filled
}

/// What may follow a head.
pub fn tail(prng: &mut Prng) -> Vec<u8> {
    match prng.below(40) {
        0..=5 => Vec::new(),
        6..=9 => b"(postulate x nat)".to_vec(),
        10..=13 => b" (postulate m (ref q))(".to_vec(),
        14..=17 => prng.pick::<&[u8]>(&[b"]", b")", b"(", b"0", b"x", b"\0", b"\n;", b" ;c"]).to_vec(),
        18..=23 => prng.pick(&FAULTS).to_vec(),
        24..=27 => [b" ;", *prng.pick(&FAULTS)].concat(),
        28..=30 => MARK.to_vec(),
        31 => vec![b' '; prng.between(65_000, 70_000)],
        32 => vec![prng.below(256) as u8; prng.between(65_000, 70_000)],
        _ => (0..prng.between(1, 30)).map(|_| prng.below(256) as u8).collect(),
    }
}

/// The nine tokens, perhaps one of them another, one left out or one twice.
fn tokens(prng: &mut Prng) -> Vec<String> {
    let [major, minor] = prng.pick(&Edition::BOTH).version();
    let mut tokens = ["(", "surface", major, minor, ")", "(", "module", "m", ")"].map(str::to_string).to_vec();
    let length = *prng.pick(&[1, 2, 8, 16, 17, 40, 300]);
    tokens[7] = match prng.below(10) {
        0 => prng.pick(&RESERVED).to_string(),
        1 => prng.pick(&NO_NAMES).to_string(),
        2 => String::from("arrow"),
        3 | 4 => prng.pick(&ORDINARY_NAMES).to_string(),
        5 | 6 => name(prng, length),
        _ => String::from("m"),
    };
    let at = prng.below(tokens.len());
    let other = *prng.pick(&["(", ")", "surface", "module", "0", "1", "2", "00", "10", "x", "nat", "[", "\u{e9}"]);
    match prng.below(20) {
        0 => drop(tokens.remove(at)),
        1 => tokens.insert(at, other.to_string()),
        2 | 3 => tokens[at] = other.to_string(),
        _ => {}
    }
    tokens
}

/// The tokens with gaps between them; one gap may be as long as it takes to end at an offset.
fn joined(tokens: &[String], end: Option<usize>, prng: &mut Prng) -> Vec<u8> {
    let gaps: Vec<Vec<u8>> =
        (0..tokens.len()).map(|at| gap(at > 0 && touch(&tokens[at - 1], &tokens[at]), prng)).collect();
    let length: usize = gaps.iter().map(Vec::len).sum::<usize>() + tokens.iter().map(String::len).sum::<usize>();
    let filled = prng.below(tokens.len());
    let comment = prng.chance(50);
    let mut text = Vec::new();
    for (at, (gap, token)) in gaps.iter().zip(tokens).enumerate() {
        if let Some(more) = end.and_then(|end| end.checked_sub(length)).filter(|more| at == filled && *more > 2) {
            let inside = if comment { b'c' } else { b' ' };
            text.push(if comment { b';' } else { b' ' });
            text.resize(text.len() + more - 2, inside);
            text.push(b'\n');
        }
        text.extend(gap);
        text.extend(token.bytes());
    }
    text
}

fn touch(one: &str, other: &str) -> bool {
    ![one, other].iter().any(|token| ["(", ")"].contains(token))
}

/// Layout and comments, some of them not UTF-8, with nothing left out that must stand between two atoms.
fn gap(must: bool, prng: &mut Prng) -> Vec<u8> {
    let layout: &[u8] = prng.pick::<&[u8]>(&[b" ", b"\n", b"\t", b"\r\n", b"        ", b"                    "]);
    match prng.below(60) {
        0..=35 if must => b" ".to_vec(),
        0..=35 => Vec::new(),
        36..=47 => layout.to_vec(),
        48..=56 => {
            [b";", *prng.pick::<&[u8]>(&[b"", b")", b"(", b"a comment of more than a block", b"\xc3\xa9"]), b"\n"]
                .concat()
        }
        57 => [b";", *prng.pick(&FAULTS), b"\n"].concat(),
        _ => [layout, b";\xe2\x88\x80\r\n", layout].concat(),
    }
}
