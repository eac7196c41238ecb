//! Random modules for scope: few names, `_` among them, which binders and declarations share, and references in every
//! argument that a form has.
use common::modules::{Declaration, Kind, Module, Term};
use common::prng::Prng;
use common::vocabulary::{BINDING, Edition, FORMS, LEAVES};

const NAMES: [&str; 5] = ["_", "x", "y", "xy", "x_"];

/// A module of up to seven declarations. Some refer to a name that is not in scope, or have one that is used before.
pub fn scoped(prng: &mut Prng) -> Module {
    let names = NAMES[..prng.between(1, NAMES.len())].to_vec();
    let unknown = if prng.chance(10) { 10 } else { 0 };
    let edition = *prng.pick(&Edition::BOTH);
    let mut maker = Maker { edition, names, unknown, globals: Vec::new(), locals: Vec::new(), budget: 0, prng };
    let declarations = (0..maker.prng.between(1, 7)).map(|_| maker.declaration()).collect();
    Module { edition, name: maker.name(), declarations }
}

struct Maker<'a> {
    prng: &'a mut Prng,
    edition: Edition,
    names: Vec<&'static str>,
    /// Percentage of names that may not be in scope, or be declared before.
    unknown: usize,
    /// The declarations made so far.
    globals: Vec<String>,
    /// The binders around the place that is being made.
    locals: Vec<String>,
    /// How many terms the type or body may still get; it may be overdrawn by the arguments that a form needs.
    budget: usize,
}

impl Maker<'_> {
    fn name(&mut self) -> String {
        self.prng.pick(&self.names).to_string()
    }

    fn declaration(&mut self) -> Declaration {
        let mut name = self.name();
        while self.globals.contains(&name) && !self.prng.chance(self.unknown) {
            name.push_str(&self.globals.len().to_string());
        }
        let kind = *self.prng.pick(&[Kind::Postulate, Kind::Transparent, Kind::Opaque]);
        let ty = self.whole_term();
        let body = (kind != Kind::Postulate).then(|| self.whole_term());
        self.globals.push(name.clone());
        Declaration { kind, name, ty, body }
    }

    fn whole_term(&mut self) -> Term {
        self.budget = self.prng.between(1, 24);
        self.term(9)
    }

    fn term(&mut self, depth: usize) -> Term {
        self.budget = self.budget.saturating_sub(1);
        if depth == 0 || self.budget == 0 || self.prng.chance(5) {
            return self.small_term();
        }
        let from = if self.prng.chance(60) { BINDING } else { FORMS.len() };
        let form = self.edition.any_form(from, self.prng);
        let binder = form.binds.then(|| self.name());
        let mut args = Vec::new();
        for at in 0..form.arity {
            // the binder covers the codomain or body, which is the last argument
            let covering = binder.as_ref().filter(|_| at + 1 == form.arity);
            self.locals.extend(covering.cloned());
            // a large domain would leave nothing for what the binder covers
            let small = form.counts() && at + 1 < form.arity && self.prng.chance(50);
            args.push(if small { self.small_term() } else { self.term(depth - 1) });
            self.locals.truncate(self.locals.len() - usize::from(covering.is_some()));
        }
        Term::Node { form, binder, args }
    }

    fn small_term(&mut self) -> Term {
        let name = self.name();
        let known = self.locals.contains(&name) || self.globals.contains(&name);
        if self.prng.chance(90) && (known || self.prng.chance(self.unknown)) {
            return Term::Ref(name);
        }
        if self.globals.is_empty() || self.prng.chance(30) {
            return Term::Leaf(self.prng.pick::<&str>(&LEAVES));
        }
        Term::Ref(self.prng.pick(&self.globals).clone())
    }
}
