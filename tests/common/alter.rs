//! One small change to a module's tree, careless about what it means: near misses for comparisons.
use crate::modules::{Kind, Module, Term};
use crate::prng::Prng;
use crate::vocabulary::{ARROW, Edition, FORMS, Form, LEAVES, ORDINARY_NAMES, pi};

/// Changes one declaration: its kind, its name, or one term of its type or body.
pub fn alter(module: &mut Module, prng: &mut Prng) {
    if module.declarations.is_empty() {
        return;
    }
    let count = module.declarations.len();
    let edition = module.edition;
    let other = module.declarations[prng.below(count)].name.clone();
    let declaration = &mut module.declarations[prng.below(count)];
    match prng.below(8) {
        0 => declaration.name = other,
        1 if declaration.kind != Kind::Postulate => {
            let opaque = declaration.kind == Kind::Opaque;
            declaration.kind = if opaque { Kind::Transparent } else { Kind::Opaque };
        }
        _ => {
            let term = match &mut declaration.body {
                Some(body) if prng.chance(50) => body,
                _ => &mut declaration.ty,
            };
            alter_term(term, edition, &other, prng);
        }
    }
}

/// Walks down to some term and changes it there.
fn alter_term(term: &mut Term, edition: Edition, global: &str, prng: &mut Prng) {
    match term {
        Term::Node { args, .. } if prng.chance(70) => {
            let at = prng.below(args.len());
            alter_term(&mut args[at], edition, global, prng);
        }
        // a pi without its name, or an arrow with one: what refers to it tells
        Term::Node { form, binder, .. }
            if edition == Edition::Second && form.core_word() == "pi" && prng.chance(50) =>
        {
            *binder = if form.binds { None } else { Some(other_name(global, prng)) };
            *form = if form.binds { &ARROW } else { pi() };
        }
        Term::Node { form, binder, args } => match binder {
            Some(name) if prng.chance(60) => *name = other_name(global, prng),
            _ => {
                let like = |other: &&Form| other.binds == binder.is_some() && other.arity == args.len();
                let alike: Vec<&'static Form> = FORMS.iter().filter(like).collect();
                *form = *prng.pick(&alike);
            }
        },
        Term::Ref(name) => *name = other_name(global, prng),
        Term::Universe(digits) => digits.push('0'),
        Term::Leaf(word) => *word = *prng.pick(&LEAVES),
    }
}

fn other_name(global: &str, prng: &mut Prng) -> String {
    if prng.chance(50) { global.to_string() } else { prng.pick(&ORDINARY_NAMES).to_string() }
}
