//! Random modules for dependence: declarations that name some of those before, in types, in transparent bodies and in opaque
//! ones. Chains come often, such that part and meet again, and such that an opaque body ends. Where types and bodies have many
//! names, several rows of one declaration lead to another.
use common::modules::{Declaration, Kind, Module, Term};
use common::prng::Prng;
use common::vocabulary::{BINDING, Edition, FORMS, LEAVES};

/// The kinds of a module's declarations.
const MIXTURES: [&[Kind]; 6] = [
    &[Kind::Postulate],
    &[Kind::Transparent],
    &[Kind::Opaque],
    &[Kind::Transparent, Kind::Opaque],
    &[Kind::Postulate, Kind::Opaque],
    &[Kind::Postulate, Kind::Transparent, Kind::Opaque],
];

/// How many names a type and a body get, each as often as it stands here.
const IN_TYPES: [usize; 8] = [0, 0, 0, 0, 1, 1, 1, 2];
const IN_BODIES: [usize; 8] = [0, 1, 1, 1, 1, 1, 2, 3];

/// A module of few declarations; one of eight has tens.
pub fn chained(prng: &mut Prng) -> Module {
    let count = match prng.below(32) {
        0 => prng.between(40, 60),
        1..=3 => prng.between(20, 32),
        _ => prng.between(2, 12),
    };
    let kinds = if prng.chance(40) { MIXTURES[MIXTURES.len() - 1] } else { prng.pick::<&[Kind]>(&MIXTURES) };
    let near = *prng.pick(&[0, 50, 90]);
    let more = *prng.pick(&[0, 0, 1, 2]);
    let edition = *prng.pick(&Edition::BOTH);
    module(count, Maker { prng, edition, kinds, near, least: 0, more, names: Vec::new() })
}

/// A module of so many declarations, each of which names one of the two before: chains are as long, or opaque bodies end them.
pub fn long(count: usize, prng: &mut Prng) -> Module {
    let kinds: &[Kind] = if prng.chance(50) {
        &[Kind::Postulate, Kind::Transparent]
    } else {
        &[Kind::Postulate, Kind::Transparent, Kind::Opaque]
    };
    let edition = *prng.pick(&Edition::BOTH);
    module(count, Maker { prng, edition, kinds, near: 100, least: 1, more: 0, names: Vec::new() })
}

fn module(count: usize, mut maker: Maker<'_>) -> Module {
    let declarations = (0..count).map(|place| maker.declaration(place)).collect();
    Module { edition: maker.edition, name: String::from("m"), declarations }
}

struct Maker<'a> {
    prng: &'a mut Prng,
    edition: Edition,
    kinds: &'a [Kind],
    /// Percentage of names that are one of the last two: where there are many, chains are long.
    near: usize,
    /// At least so many names in a body, or in the type of a postulate.
    least: usize,
    /// So many names more in each type and body.
    more: usize,
    /// The declarations made so far.
    names: Vec<String>,
}

impl Maker<'_> {
    fn declaration(&mut self, place: usize) -> Declaration {
        let kind = *self.prng.pick(self.kinds);
        let most = (*self.prng.pick(&IN_BODIES)).max(self.least) + self.more;
        // where there is no body, the type has to make the chain
        let in_type = if kind == Kind::Postulate { most } else { *self.prng.pick(&IN_TYPES) + self.more };
        let ty = self.term(in_type);
        let body = (kind != Kind::Postulate).then(|| self.term(most));
        let name = format!("a{place}");
        self.names.push(name.clone());
        Declaration { kind, name, ty, body }
    }

    /// A term with so many names of earlier declarations, of which some are bound around it.
    fn term(&mut self, names: usize) -> Term {
        if names == 0 || self.names.is_empty() {
            return self.without();
        }
        if names == 1 && self.prng.chance(70) {
            return Term::Ref(self.earlier());
        }
        let form = self.edition.any_form(FORMS.len(), self.prng);
        let binder = form.binds.then(|| self.binder());
        let mut left = names;
        let mut args = Vec::new();
        for at in 0..form.arity {
            // the last argument has what the others left
            let taken = if at + 1 == form.arity { left } else { self.prng.below(left + 1) };
            left -= taken;
            args.push(self.term(taken));
        }
        Term::Node { form, binder, args }
    }

    /// A term that names no declaration, though it may have a declaration's name.
    fn without(&mut self) -> Term {
        if self.prng.chance(80) {
            return Term::Leaf(self.prng.pick::<&str>(&LEAVES));
        }
        let form = FORMS[..BINDING].iter().find(|form| form.arity == 1).expect("lam");
        let name = self.binder();
        Term::Node { form, binder: Some(name.clone()), args: vec![Term::Ref(name)] }
    }

    fn binder(&mut self) -> String {
        if self.names.is_empty() || self.prng.chance(70) { String::from("x") } else { self.earlier() }
    }

    fn earlier(&mut self) -> String {
        let count = self.names.len();
        let back = if self.prng.chance(self.near) { self.prng.below(2) } else { self.prng.below(count) };
        self.names[count - 1 - back.min(count - 1)].clone()
    }
}
