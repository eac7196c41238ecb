//! Random modules of edition 0 1, which the Rust reads too, in several layouts.
use super::filled;
use common::modules::{Declaration, Module, Shape, generate_in};
use common::printing::{Layout, join, tokens};
use common::prng::Prng;
use common::vocabulary::Edition;

/// Names and numerals of up to 6 bytes, types and bodies of up to 12 terms.
const SHAPE: Shape = Shape { declarations: 0, depth: 6, size: 12, names: 12, unknown: 0, duplicates: 0, length: 6 };

pub fn tight(size: usize) -> String {
    module(size, Layout::Tight, "")
}

pub fn spaced(size: usize) -> String {
    module(size, Layout::Spaced, "")
}

pub fn comments(size: usize) -> String {
    module(size, Layout::Spaced, "; what the next declaration is for, in a line of text\n")
}

pub fn wild(size: usize) -> String {
    module(size, Layout::Wild, "")
}

/// The first of the random modules that fills nine tenths of the room, cut off where the room ends.
fn module(size: usize, layout: Layout, comment: &str) -> String {
    let shape = Shape { declarations: size / 20, ..SHAPE };
    let of_seed = |seed| {
        let mut prng = Prng::new(seed);
        let mut declarations = generate_in(Edition::First, &mut prng, &shape).declarations.into_iter();
        filled(size, |_, _| match declarations.next() {
            Some(declaration) => format!("{comment}{}\n", printed(declaration, layout, &mut prng)),
            None => String::new(),
        })
    };
    (0..).map(of_seed).find(|text| text.len() * 10 >= size * 9).expect("there is no last seed")
}

fn printed(declaration: Declaration, layout: Layout, prng: &mut Prng) -> String {
    let module = |declarations| tokens(&Module { edition: Edition::First, name: "m".to_owned(), declarations });
    let head = module(Vec::new()).len();
    String::from_utf8(join(&module(vec![declaration])[head..], layout, prng)).expect("UTF-8")
}
