//! Damaged copies of a source.
use crate::prng::Prng;
use crate::unicode::{CHARACTERS, FAULTS};

/// Bytes that tell something when they appear in the wrong place.
pub const TELLING: &[u8] = b"()(); \t\n\r_-0019aznA]\"\\#\x00\x0b\x0c\x1f\x7f\x80\xa9\xc3\xe2\xff";

/// A copy with a byte deleted, inserted or replaced, or a part cut, doubled or moved.
pub fn damaged(source: &[u8], prng: &mut Prng) -> Vec<u8> {
    let mut copy = source.to_vec();
    if copy.is_empty() {
        return vec![*prng.pick(TELLING)];
    }
    let at = prng.below(copy.len());
    let end = (at + prng.between(1, 6)).min(copy.len());
    match prng.below(9) {
        0 | 1 => drop(copy.remove(at)),
        2 | 3 => copy.insert(at, *prng.pick(TELLING)),
        4 | 5 => copy[at] = *prng.pick(TELLING),
        6 => copy.truncate(at),
        7 => {
            let part = copy[at..end].to_vec();
            let to = prng.below(copy.len());
            copy.splice(to..to, part);
        }
        _ => drop(copy.splice(at..end, odd_bytes(prng))),
    }
    copy
}

/// A copy that is UTF-8: what is not becomes U+FFFD.
pub fn damaged_text(source: &str, prng: &mut Prng) -> String {
    String::from_utf8_lossy(&damaged(source.as_bytes(), prng)).into_owned()
}

/// A character of several bytes, or bytes that are no character.
fn odd_bytes(prng: &mut Prng) -> Vec<u8> {
    if prng.chance(50) { prng.pick(&CHARACTERS).to_string().into_bytes() } else { prng.pick(&FAULTS).to_vec() }
}
