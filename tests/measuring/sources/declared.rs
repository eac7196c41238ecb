//! Names of declarations, and references to them.
use super::{filled, most, under_j};
use std::ops::Range;

/// Which names there are, by their length and place.
type Named = fn(usize, usize) -> String;

pub fn previous(size: usize) -> String {
    filled(size, |place, _| match place {
        0 => "(postulate a0 nat)".to_owned(),
        _ => format!("(postulate a{place} (ref a{}))", place - 1),
    })
}

pub fn last(size: usize) -> String {
    referred(size, short, |count| count - 1..count)
}

pub fn first(size: usize) -> String {
    referred(size, short, |_| 0..1)
}

fn short(place: usize) -> String {
    format!("a{place}")
}

/// Declarations in the first half, and in the other a type of references to those at the chosen places of so many, in turn.
fn referred(size: usize, name: impl Fn(usize) -> String, chosen: impl Fn(usize) -> Range<usize>) -> String {
    let mut count = 0;
    let declarations = filled(size / 2, |place, _| {
        count = place;
        format!("(postulate {} nat)", name(place))
    });
    let reference = |place| format!("(ref {})", name(place));
    let references = |number| chosen(count).cycle().take(number).map(reference).collect();
    let user = |number| format!("(postulate z {})", under_j(references(number)));
    declarations.clone() + &most(size, size - declarations.len(), user)
}

/// How many of the last declarations are referred to.
const LATE: usize = 8;

/// References to the last declarations, whose names are made of a length and a place.
pub fn late(size: usize, length: usize, named: Named) -> String {
    referred(size, |place| named(length, place), |count| count.saturating_sub(LATE)..count)
}

/// A name that begins with its number in letters, of which the first differs most.
pub fn tailed(length: usize, mut place: usize) -> String {
    let mut head = String::new();
    while head.is_empty() || place > 0 {
        head.push(char::from(b'a' + (place % 26) as u8));
        place /= 26;
    }
    format!("{:z<length$}", head + "_")
}

/// A name that ends with its number.
pub fn headed(length: usize, place: usize) -> String {
    let digits = length - 1;
    format!("a{place:0>digits$}")
}

/// A name that goes on for as many bytes more as its number says.
pub fn longer(length: usize, place: usize) -> String {
    "n".repeat(length + place)
}

const TAIL: &str = "_of_a_long_name_that_all_declarations_share";

pub fn names(size: usize) -> String {
    filled(size, |place, _| match place {
        0 => format!("(postulate n0{TAIL} nat)\n"),
        _ => format!("(transparent n{place}{TAIL} nat (ref n{}{TAIL}))\n", place / 2),
    })
}

pub fn heads(size: usize) -> String {
    filled(size, |place, _| format!("(postulate {} nat)", headed(100, place)))
}

pub fn tails(size: usize) -> String {
    filled(size, |place, _| format!("(postulate {} nat)", tailed(100, place)))
}

pub fn long_references(size: usize) -> String {
    filled(size, |place, _| match place {
        0 => format!("(postulate {} nat)", headed(100, 0)),
        _ => format!("(postulate {} (ref {}))", headed(100, place), headed(100, place / 2)),
    })
}
