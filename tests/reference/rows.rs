//! The rows of a module as document 01 lists them, and the agreement of surface rows with core rows.
use crate::Read;
use hott_kernel::surface::{SurfaceTerm, SurfaceTermId};
use hott_kernel::syntax::{Declaration, Module, Term, TermId};

pub struct Row<Id> {
    /// The kind's word.
    pub word: &'static str,
    /// The count, place, name or digits of a row that has them.
    pub detail: Option<String>,
    /// The name that a surface row binds.
    pub binder: Option<String>,
    pub children: Vec<Id>,
}

pub struct Record<'a> {
    /// The kind's word.
    pub word: &'static str,
    pub name: &'a str,
    pub ty: usize,
    pub body: Option<usize>,
}

/// Document 01's listing with its lines joined by `|`.
pub fn listing(read: &Read, module: &Module) -> String {
    let rows = core_rows(module);
    check_rows(&surface_rows(read), &rows);
    let mut lines = vec![format!("nodes {} declarations {}", rows.len(), module.declarations().len())];
    for (number, row) in rows.iter().enumerate() {
        let children = row.children.iter().map(|child| format!(" {child}"));
        let detail = row.detail.iter().map(|detail| format!(" {detail}"));
        lines.push(format!("{number} {}{}", row.word, detail.chain(children).collect::<String>()));
    }
    for (place, Record { word, name, ty, body }) in records(module).iter().enumerate() {
        let body = body.map(|body| format!(" {body}")).unwrap_or_default();
        lines.push(format!("{place} {word} {name} {ty}{body}"));
    }
    lines.join("|")
}

pub fn records(module: &Module) -> Vec<Record<'_>> {
    module.declarations().iter().map(record).collect()
}

fn record(declaration: &Declaration) -> Record<'_> {
    let word = match declaration {
        Declaration::Postulate { .. } => "postulate",
        Declaration::Transparent { .. } => "transparent",
        Declaration::Opaque { .. } => "opaque",
    };
    let (ty, body) = (declaration.ty().index(), declaration.body().map(TermId::index));
    Record { word, name: declaration.name(), ty, body }
}

/// "Core row k has surface row k's kind and children .., and a universe its [digits]; ref becomes var .. or global"; of an
/// arrow "its core row is a pi".
fn check_rows(surface: &[Row<usize>], core: &[Row<usize>]) {
    assert_eq!(surface.len(), core.len(), "as many core rows as surface rows");
    for (number, (read, resolved)) in surface.iter().zip(core).enumerate() {
        assert_eq!(read.children, resolved.children, "children of row {number}");
        if read.word == "ref" {
            assert!(["var", "global"].contains(&resolved.word), "ref of row {number}");
        } else {
            let word = if read.word == "arrow" { "pi" } else { read.word };
            assert_eq!(word, resolved.word, "kind of row {number}");
            assert_eq!(read.detail, resolved.detail, "digits of row {number}");
        }
    }
}

pub fn core_rows(module: &Module) -> Vec<Row<usize>> {
    let declarations = module.declarations().iter();
    let roots = declarations.flat_map(|declaration| [Some(declaration.ty()), declaration.body()]);
    let get = |id| core_row(module.arena().get(id).expect("a row of the arena"));
    reached(module.arena().len(), roots.flatten().collect(), TermId::index, get)
}

/// The rows of a source. In the Rust's module an arrow is a pi, which its binder tells.
pub fn surface_rows(read: &Read) -> Vec<Row<usize>> {
    let module = &read.module;
    let roots = parts(read).into_iter().flatten().collect();
    let get = |id| surface_row(module.arena().get(id).expect("a row of the arena"));
    let mut rows = reached(module.arena().len(), roots, SurfaceTermId::index, get);
    let is_arrow = |row: &&mut Row<usize>| {
        row.word == "pi" && row.binder.as_ref().map(String::as_bytes) == read.arrow.as_ref().map(|name| &name[..])
    };
    for row in rows.iter_mut().filter(is_arrow) {
        (row.word, row.binder) = ("arrow", None);
    }
    rows
}

/// For each declaration of a source the rows of its type and of its body.
pub fn roots(read: &Read) -> Vec<Vec<usize>> {
    parts(read).into_iter().map(|parts| parts.into_iter().map(SurfaceTermId::index).collect()).collect()
}

fn parts(read: &Read) -> Vec<Vec<SurfaceTermId>> {
    let declarations = read.module.declarations().iter();
    declarations
        .map(|declaration| [Some(declaration.ty()), declaration.body()].into_iter().flatten().collect())
        .collect()
}

/// The rows by number, found by walking down from types and bodies: no row is left out, none is met twice.
fn reached<Id: Copy>(
    count: usize,
    mut unread: Vec<Id>,
    index: fn(Id) -> usize,
    get: impl Fn(Id) -> Row<Id>,
) -> Vec<Row<usize>> {
    let mut rows: Vec<Option<Row<usize>>> = (0..count).map(|_| None).collect();
    while let Some(id) = unread.pop() {
        let Row { word, detail, binder, children } = get(id);
        unread.extend(&children);
        let children = children.into_iter().map(index).collect();
        let earlier = rows[index(id)].replace(Row { word, detail, binder, children });
        assert!(earlier.is_none(), "row {} has two parents", index(id));
    }
    rows.into_iter().map(|row| row.expect("a row of some type or body")).collect()
}

fn with<Id>(word: &'static str, detail: &str) -> Row<Id> {
    Row { word, detail: Some(detail.to_string()), binder: None, children: Vec::new() }
}

fn over<Id: Copy>(word: &'static str, children: &[Id]) -> Row<Id> {
    Row { word, detail: None, binder: None, children: children.to_vec() }
}

fn binding<Id: Copy>(word: &'static str, binder: &str, children: &[Id]) -> Row<Id> {
    Row { binder: Some(binder.to_string()), ..over(word, children) }
}

fn core_row(term: &Term) -> Row<TermId> {
    match term {
        Term::Var(count) => with("var", count.as_str()),
        Term::Global(place) => with("global", place.as_str()),
        Term::Universe(level) => with("universe", level.as_str()),
        Term::Pi(a, b) => over("pi", &[*a, *b]),
        Term::Lam(a) => over("lam", &[*a]),
        Term::App(a, b) => over("app", &[*a, *b]),
        Term::Sigma(a, b) => over("sigma", &[*a, *b]),
        Term::Pair(a, b) => over("pair", &[*a, *b]),
        Term::Fst(a) => over("fst", &[*a]),
        Term::Snd(a) => over("snd", &[*a]),
        Term::Id(a, b, c) => over("id", &[*a, *b, *c]),
        Term::Refl(a) => over("refl", &[*a]),
        Term::J(a, b, c, d, e, f) => over("j", &[*a, *b, *c, *d, *e, *f]),
        Term::Empty => over("empty", &[]),
        Term::EmptyElim(a, b) => over("empty-elim", &[*a, *b]),
        Term::Unit => over("unit", &[]),
        Term::Star => over("star", &[]),
        Term::UnitElim(a, b, c) => over("unit-elim", &[*a, *b, *c]),
        Term::Nat => over("nat", &[]),
        Term::Zero => over("zero", &[]),
        Term::Succ(a) => over("succ", &[*a]),
        Term::NatElim(a, b, c, d) => over("nat-elim", &[*a, *b, *c, *d]),
        Term::Ann(a, b) => over("ann", &[*a, *b]),
    }
}

fn surface_row(term: &SurfaceTerm) -> Row<SurfaceTermId> {
    match term {
        SurfaceTerm::Ref(name) => with("ref", name.as_str()),
        SurfaceTerm::Universe(level) => with("universe", level.as_str()),
        SurfaceTerm::Pi { binder, domain, codomain } => binding("pi", binder.as_str(), &[*domain, *codomain]),
        SurfaceTerm::Lam { binder, body } => binding("lam", binder.as_str(), &[*body]),
        SurfaceTerm::App(a, b) => over("app", &[*a, *b]),
        SurfaceTerm::Sigma { binder, domain, codomain } => binding("sigma", binder.as_str(), &[*domain, *codomain]),
        SurfaceTerm::Pair(a, b) => over("pair", &[*a, *b]),
        SurfaceTerm::Fst(a) => over("fst", &[*a]),
        SurfaceTerm::Snd(a) => over("snd", &[*a]),
        SurfaceTerm::Id(a, b, c) => over("id", &[*a, *b, *c]),
        SurfaceTerm::Refl(a) => over("refl", &[*a]),
        SurfaceTerm::J(a, b, c, d, e, f) => over("j", &[*a, *b, *c, *d, *e, *f]),
        SurfaceTerm::Empty => over("empty", &[]),
        SurfaceTerm::EmptyElim(a, b) => over("empty-elim", &[*a, *b]),
        SurfaceTerm::Unit => over("unit", &[]),
        SurfaceTerm::Star => over("star", &[]),
        SurfaceTerm::UnitElim(a, b, c) => over("unit-elim", &[*a, *b, *c]),
        SurfaceTerm::Nat => over("nat", &[]),
        SurfaceTerm::Zero => over("zero", &[]),
        SurfaceTerm::Succ(a) => over("succ", &[*a]),
        SurfaceTerm::NatElim(a, b, c, d) => over("nat-elim", &[*a, *b, *c, *d]),
        SurfaceTerm::Ann(a, b) => over("ann", &[*a, *b]),
    }
}
