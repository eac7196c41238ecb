//! Random modules and sources of many shapes.
use common::modules::{Declaration, Kind, Module, Shape, Term, generate};
use common::printing::{Layout, print};
use common::prng::Prng;
use common::vocabulary::{BINDING, Edition, FORMS, LEAVES, name, numeral};

const LAYOUTS: [Layout; 3] = [Layout::Tight, Layout::Spaced, Layout::Wild];

/// The text of a module in some layout.
pub fn printed(module: &Module, prng: &mut Prng) -> Vec<u8> {
    let layout = *prng.pick(&LAYOUTS);
    print(module, layout, prng)
}

/// A module of any shape: small, deep, wide, of many declarations, of few names, of long names and numerals.
pub fn module(prng: &mut Prng) -> Module {
    let base = if prng.chance(70) { Shape::accepted() } else { Shape::doubtful() };
    let shape = match prng.below(100) {
        0..=39 => base,
        40..=54 => Shape { depth: 12, size: 30, names: prng.between(1, 3), ..base },
        55..=69 => Shape { depth: 3, size: 60, ..base },
        70..=79 => Shape { depth: 40, size: 60, names: 2, ..base },
        80..=89 => Shape { declarations: 40, size: 3, names: 12, duplicates: base.duplicates / 10, ..base },
        90..=92 => Shape { length: 80, ..base },
        93..=95 => Shape { length: 500, declarations: 3, ..base },
        96 => Shape { declarations: 100, size: 60, depth: 20, unknown: 0, duplicates: 0, ..base },
        _ => return long_names(prng),
    };
    generate(prng, &shape)
}

/// Modules in which a name more or less decides: few names, few terms.
pub fn small(prng: &mut Prng) -> Module {
    let shape = Shape { declarations: 2, depth: 3, size: 4, names: 2, length: 1, ..Shape::accepted() };
    generate(prng, &shape)
}

/// A declaration whose type or body is about as deep as a term may be.
pub fn deep(prng: &mut Prng) -> Module {
    let frames = *prng.pick(&[510, 511, 512, 512, 513, 514, 600]);
    let edition = *prng.pick(&Edition::BOTH);
    let pool: Vec<String> = (0..prng.between(1, 3)).map(|_| edition.ordinary_name(prng).to_string()).collect();
    let ty = deep_term(edition, frames, &mut Vec::new(), &pool, prng);
    let body = prng.chance(50).then(|| deep_term(edition, 500, &mut Vec::new(), &pool, prng));
    let kind = if body.is_some() { Kind::Opaque } else { Kind::Postulate };
    let declaration = Declaration { kind, name: String::from("a"), ty, body };
    Module { edition, name: String::from("m"), declarations: vec![declaration] }
}

/// So many forms inside each other, the inner one at any argument.
fn deep_term(edition: Edition, frames: usize, around: &mut Vec<String>, pool: &[String], prng: &mut Prng) -> Term {
    if frames == 0 {
        return small_term(around, prng);
    }
    let from = if prng.chance(50) { BINDING } else { FORMS.len() };
    let form = edition.any_form(from, prng);
    let binder = form.binds.then(|| prng.pick(pool).clone());
    let inner = prng.below(form.arity);
    let mut args = Vec::new();
    for at in 0..form.arity {
        let covering = binder.as_ref().filter(|_| at + 1 == form.arity);
        around.extend(covering.cloned());
        args.push(if at == inner {
            deep_term(edition, frames - 1, around, pool, prng)
        } else {
            small_term(around, prng)
        });
        around.truncate(around.len() - usize::from(covering.is_some()));
    }
    Term::Node { form, binder, args }
}

fn small_term(around: &[String], prng: &mut Prng) -> Term {
    match prng.below(4) {
        0 => Term::Leaf(prng.pick::<&str>(&LEAVES)),
        1 => Term::Universe(numeral(prng, 1)),
        _ if around.is_empty() => Term::Leaf("nat"),
        _ => Term::Ref(prng.pick(around).clone()),
    }
}

/// Declarations and binders whose names share a long beginning or a long end.
fn long_names(prng: &mut Prng) -> Module {
    let edition = *prng.pick(&Edition::BOTH);
    let length = *prng.pick(&[31, 32, 33, 64, 300, 5_000]);
    let common = name(prng, length);
    let names: Vec<String> =
        ["a", "b", "ab"].iter().flat_map(|end| [format!("{common}{end}"), format!("{end}{common}")]).collect();
    let reference = |prng: &mut Prng| Term::Ref(prng.pick(&names).clone());
    let mut declarations = Vec::new();
    for name in &names {
        let args = vec![Term::Leaf("nat"), reference(prng)];
        let form = edition.any_form(1, prng);
        let ty = Term::Node { form, binder: form.binds.then(|| prng.pick(&names).clone()), args };
        declarations.push(Declaration { kind: Kind::Postulate, name: name.clone(), ty, body: None });
    }
    Module { edition, name: common, declarations }
}
