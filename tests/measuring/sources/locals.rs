//! Binders around binders, and references to the outermost.
use super::{filled, most, under_j};

const BINDERS: usize = 500;
/// A declaration is no longer, so that sources of all lengths have as many references for a binder.
const LONGEST: usize = 7_960;

pub fn other_lengths(size: usize) -> String {
    nested(size, |place| if place % 2 == 0 { two_bytes(place) } else { format!("{}__", two_bytes(place)) })
}

pub fn one_length(size: usize) -> String {
    nested(size, |place| format!("a{}", two_bytes(place)))
}

/// Other bytes for each place, and no reserved word.
fn two_bytes(place: usize) -> String {
    [place / 26, place % 26].map(|number| char::from(b'A' + number as u8)).iter().collect()
}

/// Declarations of 500 binders, or as many as take half of the room, around references to a binder outside of them.
fn nested(size: usize, binder: impl Fn(usize) -> String) -> String {
    filled(size, |place, room| {
        let room = room.min(LONGEST);
        if room < 900 {
            return String::new();
        }
        let binders = BINDERS.min(room / 2 / "(lam abc )".len()) - 1;
        let open: String = (0..binders).map(|place| format!("(lam {} ", binder(place))).collect();
        let close = ")".repeat(binders);
        most(room, room, |number| {
            let references = under_j(vec!["(ref abc)".to_owned(); number]);
            format!("(postulate d{place} (lam abc {open}{references}{close}))")
        })
    })
}
