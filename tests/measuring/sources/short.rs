//! Short declarations.
use super::{HEAD, filled};
use common::vocabulary::RESERVED;

pub fn tiny(_: usize) -> String {
    format!("{HEAD}(postulate a nat)(transparent f (pi x (ref a) nat) (lam x (ref x)))\n")
}

pub fn short(size: usize) -> String {
    filled(size, |place, _| format!("(postulate a{place} nat)"))
}

pub fn densest(size: usize) -> String {
    let mut names = shortest_names();
    filled(size, |_, _| format!("(postulate {} nat)", names.next().expect("there is no last name")))
}

/// The names that are no reserved words, in the order of their lengths.
pub fn shortest_names() -> impl Iterator<Item = String> {
    (0..).map(shortest_name).filter(|name| !RESERVED.contains(&name.as_str()))
}

/// All names in the order of their lengths, reserved words too.
fn shortest_name(mut number: usize) -> String {
    const LETTERS: &[u8; 63] = b"_ABCDEFGHIJKLMNOPQRSTUVWXYZabcdefghijklmnopqrstuvwxyz0123456789";
    const FIRST: usize = 53;
    let mut name = String::from(char::from(LETTERS[number % FIRST]));
    number /= FIRST;
    while number > 0 {
        number -= 1;
        name.push(char::from(LETTERS[number % LETTERS.len()]));
        number /= LETTERS.len();
    }
    name
}

pub fn universes(size: usize) -> String {
    filled(size, |place, _| format!("(postulate u{place} (pi _ (universe {place}) (universe {})))", place + 1))
}
