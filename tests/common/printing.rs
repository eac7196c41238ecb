//! The text of a module: its tokens, and the layout between them.
use crate::modules::{Declaration, Kind, Module, Term};
use crate::prng::Prng;
use crate::unicode::CHARACTERS;

/// The tokens of a module, in order.
pub fn tokens(module: &Module) -> Vec<String> {
    let mut tokens = Vec::new();
    let [major, minor] = module.edition.version();
    push_all(&mut tokens, &["(", "surface", major, minor, ")", "(", "module", &module.name, ")"]);
    for declaration in &module.declarations {
        push_declaration(&mut tokens, declaration);
    }
    tokens
}

fn push_all(tokens: &mut Vec<String>, words: &[&str]) {
    tokens.extend(words.iter().map(|word| word.to_string()));
}

fn push_declaration(tokens: &mut Vec<String>, declaration: &Declaration) {
    let tag = match declaration.kind {
        Kind::Postulate => "postulate",
        Kind::Transparent => "transparent",
        Kind::Opaque => "opaque",
    };
    push_all(tokens, &["(", tag, &declaration.name]);
    push_term(tokens, &declaration.ty);
    declaration.body.iter().for_each(|body| push_term(tokens, body));
    push_all(tokens, &[")"]);
}

pub fn push_term(tokens: &mut Vec<String>, term: &Term) {
    match term {
        Term::Leaf(word) => push_all(tokens, &[word]),
        Term::Ref(name) => push_all(tokens, &["(", "ref", name, ")"]),
        Term::Universe(digits) => push_all(tokens, &["(", "universe", digits, ")"]),
        Term::Node { form, binder, args } => {
            push_all(tokens, &["(", form.word]);
            tokens.extend(binder.clone());
            args.iter().for_each(|arg| push_term(tokens, arg));
            push_all(tokens, &[")"]);
        }
    }
}

/// What stands between the tokens.
#[derive(Clone, Copy, Debug, PartialEq)]
pub enum Layout {
    /// One space where two atoms would touch, and nothing else.
    Tight,
    /// One space before everything but a closing parenthesis.
    Spaced,
    /// Any layout bytes and comments.
    Wild,
}

pub fn print(module: &Module, layout: Layout, prng: &mut Prng) -> Vec<u8> {
    join(&tokens(module), layout, prng)
}

pub fn join(tokens: &[String], layout: Layout, prng: &mut Prng) -> Vec<u8> {
    let mut text = Vec::new();
    for (at, token) in tokens.iter().enumerate() {
        let must = at > 0 && is_atom(&tokens[at - 1]) && is_atom(token);
        match layout {
            Layout::Tight if must => text.push(b' '),
            Layout::Tight => {}
            Layout::Spaced if at > 0 && token != ")" && tokens[at - 1] != "(" => text.push(b' '),
            Layout::Spaced => {}
            Layout::Wild => push_gap(&mut text, must, prng),
        }
        text.extend(token.bytes());
    }
    if layout == Layout::Wild {
        push_gap(&mut text, false, prng);
        if prng.chance(20) {
            text.extend(comment(prng));
        }
    }
    text
}

fn is_atom(token: &str) -> bool {
    token != "(" && token != ")"
}

/// Random layout, at least something where two atoms would touch.
fn push_gap(text: &mut Vec<u8>, must: bool, prng: &mut Prng) {
    let mut pieces = if prng.chance(60) { 0 } else { prng.between(1, 3) };
    if must {
        pieces = pieces.max(1);
    }
    for _ in 0..pieces {
        if prng.chance(25) {
            text.extend(comment(prng));
            text.push(b'\n');
        } else {
            text.push(*prng.pick(b" \t\n\r"));
        }
    }
}

/// A comment without the byte 10 that ends it: any text, byte 13, parentheses and further `;` too.
pub fn comment(prng: &mut Prng) -> Vec<u8> {
    let mut text = b";".to_vec();
    for _ in 0..prng.below(5) {
        match prng.below(5) {
            0 => text.extend(prng.pick(&CHARACTERS).to_string().bytes()),
            1 => text.push(*prng.pick(b"\r\t\0\x7f\x0b;()]\"\\")),
            _ => text.push(prng.between(32, 126) as u8),
        }
    }
    text
}
