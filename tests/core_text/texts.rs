//! Random core texts: the tokens of modules, with names and numerals that no source leads to.
use super::layout::{Layout, join};
use super::strings;
use crate::loading::generated;
use common::modules::{Kind, Module, Term};
use common::prng::Prng;
use common::vocabulary;

/// A core text up to its first declaration, as it is printed.
pub const HEAD: &str = "(hott-core (format 0 1) (theory \"mltt-core\" 0 1) (declarations";

/// The tokens of HEAD.
pub const HEAD_TOKENS: [&str; 15] = [
    "(",
    "hott-core",
    "(",
    "format",
    "0",
    "1",
    ")",
    "(",
    "theory",
    "\"mltt-core\"",
    "0",
    "1",
    ")",
    "(",
    "declarations",
];

/// A text that is taken, but for names used twice and for limits.
pub fn text(prng: &mut Prng) -> Vec<u8> {
    let module = generated::module(prng);
    written(&module, prng)
}

/// A module's text in some layout, often as it is printed.
pub fn written(module: &Module, prng: &mut Prng) -> Vec<u8> {
    let layout = if prng.chance(30) { Layout::Printed } else { *prng.pick(&Layout::ALL) };
    join(&tokens(module, prng), layout, prng)
}

/// A module's tokens. Its names become strings: as they are, any, a few again and again, or long ones that are nearly
/// alike. References become var and global with any numeral.
pub fn tokens(module: &Module, prng: &mut Prng) -> Vec<String> {
    let mut tokens = words(&HEAD_TOKENS);
    let (sort, few, alike) = (prng.below(4), strings::few(prng), strings::alike(prng));
    for declaration in &module.declarations {
        let tag = match declaration.kind {
            Kind::Postulate => "postulate",
            Kind::Transparent => "transparent",
            Kind::Opaque => "opaque",
        };
        let name = match sort {
            0 => format!("\"{}\"", declaration.name),
            1 => strings::name(prng),
            2 => prng.pick(&few).clone(),
            _ => prng.pick(&alike).clone(),
        };
        tokens.extend(words(&["(", tag, &name]));
        push_term(&mut tokens, &declaration.ty, prng);
        declaration.body.iter().for_each(|body| push_term(&mut tokens, body, prng));
        tokens.extend(words(&[")"]));
    }
    tokens.extend(words(&[")", ")"]));
    tokens
}

pub fn words(of: &[&str]) -> Vec<String> {
    of.iter().map(|word| word.to_string()).collect()
}

fn push_term(tokens: &mut Vec<String>, term: &Term, prng: &mut Prng) {
    match term {
        Term::Leaf(word) => tokens.extend(words(&[word])),
        Term::Ref(_) => {
            let tag = *prng.pick(&["var", "global"]);
            tokens.extend(words(&["(", tag, &numeral(prng), ")"]));
        }
        Term::Universe(digits) => tokens.extend(words(&["(", "universe", digits, ")"])),
        Term::Node { form, args, .. } => {
            tokens.extend(words(&["(", form.core_word()]));
            args.iter().for_each(|arg| push_term(tokens, arg, prng));
            tokens.extend(words(&[")"]));
        }
    }
}

/// A numeral, now and then one that is no number of a machine.
fn numeral(prng: &mut Prng) -> String {
    match prng.below(40) {
        0 => {
            let digits = *prng.pick(&[9, 10, 11, 19, 20, 21, 39, 300]);
            vocabulary::numeral(prng, digits)
        }
        1 => prng
            .pick(&["4294967295", "4294967296", "18446744073709551615", "18446744073709551616", "65536"])
            .to_string(),
        2..=6 => vocabulary::numeral(prng, 2),
        _ => vocabulary::numeral(prng, 1),
    }
}
