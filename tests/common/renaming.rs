//! The same module with other binder names, in either edition: every reference keeps what binds it.
use crate::modules::{Declaration, Module, Term};
use crate::prng::Prng;
use crate::vocabulary::{ARROW, Edition, name, pi};

/// A binder's old and new name.
type Renamed = (String, String);

/// A module that agrees with `module` in document 01's meaning: binders and the module name are changed, and the edition may be
/// the other one. In 0 2 a pi whose name is not used may become an arrow, and an arrow a pi.
pub fn rename_binders(module: &Module, prng: &mut Prng) -> Module {
    // a declaration's name stays, and what it is called decides whether 0 2 has it
    let first_only = module.declarations.iter().any(|declaration| declaration.name == ARROW.word);
    let edition = if first_only { Edition::First } else { *prng.pick(&Edition::BOTH) };
    let mut renaming = Renaming { edition, around: Vec::new(), prng };
    let name = renaming.new_name(&[]);
    let declarations = module.declarations.iter().map(|declaration| Declaration {
        kind: declaration.kind,
        name: declaration.name.clone(),
        ty: renaming.term(&declaration.ty),
        body: declaration.body.as_ref().map(|body| renaming.term(body)),
    });
    Module { edition, name, declarations: declarations.collect() }
}

struct Renaming<'a> {
    edition: Edition,
    /// The binders around the present place that are used.
    around: Vec<Renamed>,
    prng: &'a mut Prng,
}

impl Renaming<'_> {
    fn term(&mut self, term: &Term) -> Term {
        match term {
            Term::Ref(name) => Term::Ref(new_reference(name, &self.around)),
            Term::Node { form, binder, args } if form.counts() => {
                let (covered, before) = args.split_last().expect("a binding form has arguments");
                let mut taken = Vec::new();
                outer_references(covered, &mut binder.iter().map(String::as_str).collect(), &self.around, &mut taken);
                let new = self.new_name(&taken);
                let mut args: Vec<Term> = before.iter().map(|arg| self.term(arg)).collect();
                let used = binder.as_ref().filter(|old| refers(covered, old));
                let depth = self.around.len();
                self.around.extend(used.map(|old| (old.clone(), new.clone())));
                args.push(self.term(covered));
                self.around.truncate(depth);
                let may_be_arrow = self.edition == Edition::Second && form.core_word() == "pi" && used.is_none();
                if may_be_arrow && self.prng.chance(50) {
                    return Term::Node { form: &ARROW, binder: None, args };
                }
                Term::Node { form: if form.binds { form } else { pi() }, binder: Some(new), args }
            }
            Term::Node { form, args, .. } => {
                Term::Node { form, binder: None, args: args.iter().map(|arg| self.term(arg)).collect() }
            }
            other => other.clone(),
        }
    }

    /// A name that is not taken, often a short or ordinary one so that names meet.
    fn new_name(&mut self, taken: &[String]) -> String {
        for length in 1.. {
            let ordinary = self.prng.chance(50);
            let candidate =
                if ordinary { self.edition.ordinary_name(self.prng).to_string() } else { name(self.prng, length) };
            if !taken.contains(&candidate) {
                return candidate;
            }
        }
        unreachable!("names grow until one is free")
    }
}

/// Whether a reference in a term has a name that nothing in the term binds there.
pub fn refers(term: &Term, name: &str) -> bool {
    match term {
        Term::Ref(other) => other == name,
        Term::Node { binder, args, .. } => args.iter().enumerate().any(|(at, arg)| {
            let hidden = at + 1 == args.len() && binder.as_deref() == Some(name);
            !hidden && refers(arg, name)
        }),
        _ => false,
    }
}

/// The new name of a reference: its innermost binder's, or its own where it is free.
fn new_reference(name: &str, around: &[Renamed]) -> String {
    let bound = around.iter().rev().find(|(old, _)| old == name);
    bound.map_or(name, |(_, new)| new).to_string()
}

/// The new names of the references in `term` that none of `inside` binds: a new binder must not take them.
fn outer_references<'a>(term: &'a Term, inside: &mut Vec<&'a str>, around: &[Renamed], taken: &mut Vec<String>) {
    match term {
        Term::Ref(name) if !inside.contains(&name.as_str()) => taken.push(new_reference(name, around)),
        Term::Node { binder, args, .. } => {
            for (at, arg) in args.iter().enumerate() {
                let covering = binder.as_deref().filter(|_| at + 1 == args.len());
                inside.extend(covering);
                outer_references(arg, inside, around, taken);
                inside.truncate(inside.len() - usize::from(covering.is_some()));
            }
        }
        _ => {}
    }
}
