//! Names made against the index of names: crates/scope, specs/Index.antt.
use super::filled;

/// What a name's bytes are mixed with there, and how far the mark lies in what comes out.
const MULTIPLIER: u32 = 374_761_393;
const SHIFT: u32 = 20;

/// The mark that all names have.
const MARK: u32 = 7;

/// Names of five bytes.
pub fn short(size: usize) -> String {
    sharing(size, "")
}

/// Names of 40 bytes with one head: they part late, whether bytes or bits are looked at.
pub fn long(size: usize) -> String {
    sharing(size, "the_name_of_a_thing_which_is_stated")
}

/// Declarations of names that share the mark and a head.
fn sharing(size: usize, head: &str) -> String {
    let mixed = mixed(0, head.as_bytes());
    let mut names = middles().flat_map(|middle| marked(mixed, middle));
    filled(size, |_, _| match names.next() {
        Some(name) => format!("(postulate {head}{name} nat)"),
        None => String::new(),
    })
}

/// All texts of four small letters, in order.
fn middles() -> impl Iterator<Item = [u8; 4]> {
    let letter = |number: usize, step: usize| b'a' + (number / step % 26) as u8;
    (0..26usize.pow(4)).map(move |number| [17_576, 676, 26, 1].map(|step| letter(number, step)))
}

/// The ends with four letters and one more that have the mark, behind a head from which so much is mixed.
fn marked(head: u32, middle: [u8; 4]) -> impl Iterator<Item = String> {
    let before = mixed(head, &middle);
    let last = b"0123456789ABCDEFGHIJKLMNOPQRSTUVWXYZ_abcdefghijklmnopqrstuvwxyz";
    let hits = last.iter().filter(move |byte| mixed(before, &[**byte]) >> SHIFT == MARK);
    hits.map(move |byte| middle.iter().chain([byte]).map(|byte| char::from(*byte)).collect())
}

fn mixed(before: u32, bytes: &[u8]) -> u32 {
    bytes.iter().fold(before, |mixed, byte| mixed.wrapping_add((*byte).into()).wrapping_mul(MULTIPLIER))
}
