//! How the sources are put together; each kind has its function in a file below.
pub mod chained;
pub mod declared;
pub mod forms;
pub mod layout;
pub mod locals;
pub mod marks;
pub mod random;
pub mod short;

const HEAD: &str = "(surface 0 1)(module measured)\n";

/// A module of as many declarations as fit into so many bytes. `next` gets the place and the bytes that are left, and
/// ends the module by an empty text.
fn filled(size: usize, mut next: impl FnMut(usize, usize) -> String) -> String {
    let mut text = String::from(HEAD);
    for place in 0.. {
        let room = size - text.len();
        let declaration = next(place, room);
        if declaration.is_empty() || declaration.len() > room {
            break;
        }
        text.push_str(&declaration);
    }
    text
}

/// The longest of the texts for 1, 2, 3 and so on that fits, or an empty one; each is longer than the one before.
fn most(limit: usize, room: usize, text: impl Fn(usize) -> String) -> String {
    let (mut fits, mut over) = (0, limit + 1);
    while fits + 1 < over {
        let middle = (fits + over) / 2;
        if text(middle).len() <= room {
            fits = middle;
        } else {
            over = middle;
        }
    }
    if fits == 0 { String::new() } else { text(fits) }
}

/// Terms side by side under `j` forms that are as shallow as can be.
fn under_j(mut terms: Vec<String>) -> String {
    while terms.len() > 1 {
        terms = terms.chunks(6).map(j).collect();
    }
    terms.pop().expect("a term")
}

/// A `j` form of up to six terms, the rest `nat`.
fn j(terms: &[String]) -> String {
    let mut text = String::from("(j");
    for at in 0..6 {
        text.push(' ');
        text.push_str(terms.get(at).map_or("nat", String::as_str));
    }
    text + ")"
}
