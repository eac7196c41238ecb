//! Modules as named trees, and a generator of them with a tunable shape.
use crate::prng::Prng;
use crate::vocabulary::{BINDING, Edition, FORMS, Form, LEAVES, name, numeral};

#[derive(Clone, Debug, PartialEq)]
pub enum Term {
    Leaf(&'static str),
    Ref(String),
    Universe(String),
    Node { form: &'static Form, binder: Option<String>, args: Vec<Term> },
}

#[derive(Clone, Copy, Debug, PartialEq)]
pub enum Kind {
    Postulate,
    Transparent,
    Opaque,
}

#[derive(Clone, Debug, PartialEq)]
pub struct Declaration {
    pub kind: Kind,
    pub name: String,
    pub ty: Term,
    pub body: Option<Term>,
}

#[derive(Clone, Debug, PartialEq)]
pub struct Module {
    pub edition: Edition,
    pub name: String,
    pub declarations: Vec<Declaration>,
}

/// What a generated module looks like. Percentages are from 0 to 100.
#[derive(Clone)]
pub struct Shape {
    /// At most so many declarations.
    pub declarations: usize,
    /// At most so many forms open at once in a type or body.
    pub depth: usize,
    /// About so many terms in a type or body.
    pub size: usize,
    /// Binders are drawn from so many names: few names hide each other often.
    pub names: usize,
    /// Percentage of references to a name that is likely not in scope (refused 5).
    pub unknown: usize,
    /// Percentage of declarations with an earlier declaration's name (refused 4).
    pub duplicates: usize,
    /// The greatest length of a name and of a numeral.
    pub length: usize,
}

impl Shape {
    /// Small modules in which every name is known: they are accepted.
    pub const fn accepted() -> Self {
        Self { declarations: 4, depth: 5, size: 8, names: 4, unknown: 0, duplicates: 0, length: 3 }
    }

    /// Small modules of which many are refused for a name.
    pub const fn doubtful() -> Self {
        Self { unknown: 8, duplicates: 15, ..Self::accepted() }
    }
}

/// A module of either edition.
pub fn generate(prng: &mut Prng, shape: &Shape) -> Module {
    let edition = *prng.pick(&Edition::BOTH);
    generate_in(edition, prng, shape)
}

pub fn generate_in(edition: Edition, prng: &mut Prng, shape: &Shape) -> Module {
    let pool = pool(edition, prng, shape);
    let mut maker = Maker { edition, pool, globals: Vec::new(), locals: Vec::new(), budget: 0, prng, shape };
    let count = maker.prng.between(0, shape.declarations);
    Module { edition, name: maker.pool_name(), declarations: (0..count).map(|_| maker.declaration()).collect() }
}

/// The names that binders and declarations are drawn from.
fn pool(edition: Edition, prng: &mut Prng, shape: &Shape) -> Vec<String> {
    (0..shape.names.max(1))
        .map(|_| {
            if shape.length > 1 && prng.chance(40) {
                edition.ordinary_name(prng).to_string()
            } else {
                let length = prng.between(1, shape.length.max(1));
                name(prng, length)
            }
        })
        .collect()
}

struct Maker<'a> {
    prng: &'a mut Prng,
    shape: &'a Shape,
    edition: Edition,
    pool: Vec<String>,
    /// The declarations made so far.
    globals: Vec<String>,
    /// The binders around the place that is being made.
    locals: Vec<String>,
    /// How many terms the type or body may still get; it may be overdrawn by the arguments that a form needs.
    budget: usize,
}

impl Maker<'_> {
    fn pool_name(&mut self) -> String {
        self.prng.pick(&self.pool).clone()
    }

    fn declaration(&mut self) -> Declaration {
        let name = self.declaration_name();
        let kind = *self.prng.pick(&[Kind::Postulate, Kind::Transparent, Kind::Opaque]);
        let ty = self.whole_term();
        let body = (kind != Kind::Postulate).then(|| self.whole_term());
        self.globals.push(name.clone());
        Declaration { kind, name, ty, body }
    }

    /// An earlier declaration's name as often as the shape says, else a new one, preferably a binder's name.
    fn declaration_name(&mut self) -> String {
        if !self.globals.is_empty() && self.prng.chance(self.shape.duplicates) {
            return self.prng.pick(&self.globals).clone();
        }
        let mut name = self.pool_name();
        while self.globals.contains(&name) {
            name.push_str(&self.globals.len().to_string());
        }
        name
    }

    fn whole_term(&mut self) -> Term {
        self.budget = self.prng.between(1, self.shape.size.max(1));
        self.term(self.shape.depth)
    }

    fn term(&mut self, depth: usize) -> Term {
        self.budget = self.budget.saturating_sub(1);
        if depth == 0 || self.budget == 0 || self.prng.chance(15) {
            return self.small_term();
        }
        // binders are what most of the rules are about
        let from = if self.prng.chance(30) { BINDING } else { FORMS.len() };
        let form = self.edition.any_form(from, self.prng);
        let binder = form.binds.then(|| self.pool_name());
        let args = (0..form.arity)
            .map(|at| self.argument(depth - 1, binder.as_ref().filter(|_| at + 1 == form.arity)))
            .collect();
        Term::Node { form, binder, args }
    }

    /// An argument; the binder covers the codomain or body, which is the last one.
    fn argument(&mut self, depth: usize, binder: Option<&String>) -> Term {
        self.locals.extend(binder.cloned());
        let term = self.term(depth);
        if binder.is_some() {
            self.locals.pop();
        }
        term
    }

    fn small_term(&mut self) -> Term {
        match self.prng.below(10) {
            0..=5 => self.reference(),
            6 => {
                let digits = self.prng.between(1, self.shape.length.max(1));
                Term::Universe(numeral(self.prng, digits))
            }
            _ => Term::Leaf(LEAVES[self.prng.below(LEAVES.len())]),
        }
    }

    /// A name that may be known by chance, or be declared only later.
    fn doubtful_name(&mut self) -> String {
        if self.prng.chance(50) { self.pool_name() } else { name(self.prng, self.shape.length) }
    }

    fn reference(&mut self) -> Term {
        if self.prng.chance(self.shape.unknown) {
            return Term::Ref(self.doubtful_name());
        }
        let from = if self.globals.is_empty() || !self.locals.is_empty() && self.prng.chance(70) {
            &self.locals
        } else {
            &self.globals
        };
        if from.is_empty() { Term::Leaf("nat") } else { Term::Ref(self.prng.pick(from).clone()) }
    }
}
