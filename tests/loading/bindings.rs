//! What binds each reference of a module, from its tree and the definition of scope alone. The tables play no part: rows
//! are counted in the order in which terms end.
use common::modules::{Module, Term};

/// What a reference is bound by.
#[derive(Clone, Copy, Debug, Eq, PartialEq)]
pub enum Binding {
    Local { count: usize, row: usize },
    Global { place: usize },
}

/// A reference of an accepted module.
#[derive(Clone, Copy)]
pub struct Bound {
    pub binding: Binding,
    /// Which of TRAITS it has.
    pub traits: [bool; TRAITS.len()],
}

/// What makes a reference telling. A local one is shadowed if a binder further out has its name too.
pub const TRAITS: [&str; 9] = [
    "local and shadowed",
    "local with an earlier declaration's name",
    "with a declaration's name",
    "in a domain",
    "in the domain of a form that binds its name",
    "named _",
    "local with an arrow between",
    "in an arrow's codomain",
    "in an arrow's domain",
];

/// For each row what binds it: None where it is no reference, or one to nothing.
pub fn bindings(module: &Module) -> Vec<Option<Bound>> {
    let names: Vec<&str> = module.declarations.iter().map(|declaration| declaration.name.as_str()).collect();
    let mut rows = Vec::new();
    for (place, declaration) in module.declarations.iter().enumerate() {
        for term in [Some(&declaration.ty), declaration.body.as_ref()].into_iter().flatten() {
            let mut walk = Walk { names: &names, place, covering: Vec::new(), domains: Vec::new(), rows: &mut rows };
            walk.term(term);
        }
    }
    rows
}

/// How many rows a term has.
fn size(term: &Term) -> usize {
    match term {
        Term::Node { args, .. } => 1 + args.iter().map(size).sum::<usize>(),
        _ => 1,
    }
}

struct Walk<'a> {
    names: &'a [&'a str],
    /// The declaration whose type or body this is: it sees those before.
    place: usize,
    /// The binders in whose codomain or body the present term stands, the innermost last, each with its form's row. That of an
    /// arrow has no name: "in the codomain it counts as one binder that no name reaches".
    covering: Vec<(Option<&'a str>, usize)>,
    /// The binders in whose form's domain it stands.
    domains: Vec<Option<&'a str>>,
    rows: &'a mut Vec<Option<Bound>>,
}

impl<'a> Walk<'a> {
    fn term(&mut self, term: &'a Term) {
        if let Term::Node { form, binder, args } = term {
            // the form ends behind its arguments, so its row is the last of so many
            let row = self.rows.len() + size(term) - 1;
            let name = binder.as_deref();
            for (at, arg) in args.iter().enumerate() {
                if !form.counts() {
                    self.term(arg);
                } else if at + 1 == args.len() {
                    self.covering.push((name, row));
                    self.term(arg);
                    self.covering.pop();
                } else {
                    self.domains.push(name);
                    self.term(arg);
                    self.domains.pop();
                }
            }
        }
        let bound = if let Term::Ref(name) = term { self.bound(name) } else { None };
        self.rows.push(bound);
    }

    /// "bound by the innermost pi, sigma or lam of that name in whose codomain or body it stands .. else the earlier
    /// declaration of that name"
    fn bound(&self, name: &str) -> Option<Bound> {
        let mut inside = self.covering.iter().rev().enumerate().filter(|(_, (binder, _))| *binder == Some(name));
        let local = inside.next().map(|(count, (_, row))| Binding::Local { count, row: *row });
        let global = self.names[..self.place].iter().position(|other| *other == name);
        let is_arrow = |(binder, _): &&(Option<&str>, usize)| binder.is_none();
        let mut between = self.covering.iter().rev().take_while(|(binder, _)| *binder != Some(name));
        let traits = [
            inside.next().is_some(),
            local.is_some() && global.is_some(),
            self.names.contains(&name),
            !self.domains.is_empty(),
            self.domains.contains(&Some(name)),
            name == "_",
            local.is_some() && between.any(|binder| is_arrow(&binder)),
            self.covering.iter().any(|binder| is_arrow(&binder)),
            self.domains.contains(&None),
        ];
        let binding = local.or(global.map(|place| Binding::Global { place }))?;
        Some(Bound { binding, traits })
    }
}
