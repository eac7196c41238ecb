//! The views of a loaded source: every kind of row, names and numerals as parts of the source, declarations, the listing.
use sulyterom::{Atom, Declaration, DeclarationKind, Loader, Row, SurfaceRow, Tables, Target, load};

/// Every kind of row, bodies, and digits that are no 32-bit number.
const KINDS: &str = "\
(surface 0 1)(module m) ; é
(opaque a (universe 0) (j nat unit star zero empty (universe 123456789012345678901234567890)))
(transparent b (pi x nat (sigma y (ref x) (id nat (ref x) (ref y))))
  (lam z (app (fst (ref a)) (snd (pair (ref z) (refl (succ zero)))))))
(postulate c (ann (nat-elim nat zero star unit) (unit-elim unit star (empty-elim nat zero))))
";

const LISTING: &str = "\
nodes 38 declarations 3
0 universe 0
1 nat
2 unit
3 star
4 zero
5 empty
6 universe 123456789012345678901234567890
7 j 1 2 3 4 5 6
8 nat
9 var 0
10 nat
11 var 1
12 var 0
13 id 10 11 12
14 sigma 9 13
15 pi 8 14
16 global 0
17 fst 16
18 var 0
19 zero
20 succ 19
21 refl 20
22 pair 18 21
23 snd 22
24 app 17 23
25 lam 24
26 nat
27 zero
28 star
29 unit
30 nat-elim 26 27 28 29
31 unit
32 star
33 nat
34 zero
35 empty-elim 33 34
36 unit-elim 31 32 35
37 ann 30 36
0 opaque a 0 7
1 transparent b 15 25
2 postulate c 37
";

/// The part of KINDS that starts with `text`, `skip` bytes further on.
fn atom(text: &str, skip: usize, length: usize) -> Atom<'static> {
    let start = KINDS.find(text).expect("a part of KINDS") + skip;
    Atom { start, bytes: &KINDS.as_bytes()[start..start + length] }
}

#[test]
fn a_loaded_source_is_shown_as_the_listing() {
    let mut tables = Tables::for_bytes(KINDS.len());
    assert_eq!(load(KINDS.as_bytes(), &mut tables).unwrap().to_string(), LISTING);
    assert_eq!(load(b"(surface 0 1)(module m)", &mut tables).unwrap().to_string(), "nodes 0 declarations 0\n");
}

#[test]
fn every_kind_of_core_row() {
    let mut tables = Tables::for_bytes(KINDS.len());
    let loaded = load(KINDS.as_bytes(), &mut tables).unwrap();
    let first = [
        Row::Universe { level: atom("0) (j", 0, 1) },
        Row::Nat,
        Row::Unit,
        Row::Star,
        Row::Zero,
        Row::Empty,
        Row::Universe { level: atom("1234", 0, 30) },
        Row::J { ty: 1, base: 2, motive: 3, branch: 4, endpoint: 5, path: 6 },
        Row::Nat,
        Row::Var { count: 0 },
        Row::Nat,
        Row::Var { count: 1 },
        Row::Var { count: 0 },
        Row::Id { ty: 10, left: 11, right: 12 },
        Row::Sigma { domain: 9, codomain: 13 },
        Row::Pi { domain: 8, codomain: 14 },
        Row::Global { place: 0 },
        Row::Fst { pair: 16 },
        Row::Var { count: 0 },
        Row::Zero,
        Row::Succ { predecessor: 19 },
        Row::Refl { term: 20 },
        Row::Pair { first: 18, second: 21 },
        Row::Snd { pair: 22 },
        Row::App { function: 17, argument: 23 },
        Row::Lam { body: 24 },
    ];
    assert!(loaded.rows().take(first.len()).eq(first));
    assert_eq!(loaded.row(30), Some(Row::NatElim { motive: 26, zero_case: 27, step: 28, scrutinee: 29 }));
    assert_eq!(loaded.row(35), Some(Row::EmptyElim { motive: 33, scrutinee: 34 }));
    assert_eq!(loaded.row(36), Some(Row::UnitElim { motive: 31, branch: 32, scrutinee: 35 }));
    assert_eq!(loaded.row(37), Some(Row::Ann { term: 30, ty: 36 }));
    assert_eq!((loaded.row_count(), loaded.rows().len(), loaded.row(38)), (38, 38, None));
}

#[test]
fn every_kind_of_surface_row() {
    let mut tables = Tables::for_bytes(KINDS.len());
    let loaded = load(KINDS.as_bytes(), &mut tables).unwrap();
    let named = [
        (9, SurfaceRow::Ref { name: atom("(ref x) (id", 5, 1) }),
        (11, SurfaceRow::Ref { name: atom("(ref x) (ref y)", 5, 1) }),
        (12, SurfaceRow::Ref { name: atom("(ref y)", 5, 1) }),
        (14, SurfaceRow::Sigma { binder: atom("(sigma y", 7, 1), domain: 9, codomain: 13 }),
        (15, SurfaceRow::Pi { binder: atom("(pi x", 4, 1), domain: 8, codomain: 14 }),
        (16, SurfaceRow::Ref { name: atom("(ref a)", 5, 1) }),
        (18, SurfaceRow::Ref { name: atom("(ref z)", 5, 1) }),
        (25, SurfaceRow::Lam { binder: atom("(lam z", 5, 1), body: 24 }),
    ];
    for (number, row) in loaded.surface_rows().enumerate() {
        let expected = named.iter().find(|(known, _)| *known == number).map(|(_, row)| *row);
        // every other row is the same in both tables
        assert_eq!(row, expected.unwrap_or_else(|| SurfaceRow::Same(loaded.row(number).unwrap())), "row {number}");
        assert_eq!(loaded.surface_row(number), Some(row));
    }
    assert_eq!((loaded.surface_rows().len(), loaded.surface_row(38)), (38, None));
}

#[test]
fn declarations_with_and_without_a_body() {
    let mut tables = Tables::for_bytes(KINDS.len());
    let loaded = load(KINDS.as_bytes(), &mut tables).unwrap();
    let expected = [
        Declaration { kind: DeclarationKind::Opaque, name: atom("a (universe", 0, 1), ty: 0, body: Some(7) },
        Declaration { kind: DeclarationKind::Transparent, name: atom("b (pi", 0, 1), ty: 15, body: Some(25) },
        Declaration { kind: DeclarationKind::Postulate, name: atom("c (ann", 0, 1), ty: 37, body: None },
    ];
    assert!(loaded.declarations().eq(expected));
    assert_eq!(loaded.declaration(1), Some(expected[1]));
    assert_eq!((loaded.declaration_count(), loaded.declarations().len(), loaded.declaration(3)), (3, 3, None));
}

#[test]
fn names_are_parts_of_the_source_itself() {
    let source = b"(surface 0 1) (module m) (postulate a_Long_n4me (universe 0))".to_vec();
    let mut tables = Tables::with_sizes(1, 1);
    let loaded = load(&source, &mut tables).unwrap();
    let name = loaded.declaration(0).unwrap().name;
    assert_eq!((name.start, name.as_str()), (36, "a_Long_n4me"));
    assert!(std::ptr::eq(name.bytes, &source[36..47]));
    assert_eq!(format!("{name} {name:?}"), "a_Long_n4me a_Long_n4me at 36");
    assert_eq!(loaded.source(), source);
}

#[test]
fn children_come_before_their_row() {
    let mut tables = Tables::for_bytes(KINDS.len());
    let loaded = load(KINDS.as_bytes(), &mut tables).unwrap();
    let mut roots = vec![true; loaded.row_count()];
    for (number, row) in loaded.rows().enumerate() {
        for child in row.children() {
            assert!(child < number, "child {child} of row {number}");
            roots[child] = false;
        }
    }
    // what is no child is a type or a body
    let tops: Vec<usize> = (0..roots.len()).filter(|row| roots[*row]).collect();
    assert_eq!(tops, [0, 7, 15, 25, 37]);
}

#[test]
fn references_in_the_order_of_the_source() {
    let mut loader = Loader::new();
    let loaded = loader.load(KINDS.as_bytes()).unwrap();
    let (var, global) = (|count| Target::Var { count }, |place| Target::Global { place });
    let expected = [
        (9, atom("(ref x) (id", 5, 1), var(0)),
        (11, atom("(ref x) (ref y)", 5, 1), var(1)),
        (12, atom("(ref y)", 5, 1), var(0)),
        (16, atom("(ref a)", 5, 1), global(0)),
        (18, atom("(ref z)", 5, 1), var(0)),
    ];
    assert!(loaded.references().map(|it| (it.row, it.name, it.target)).eq(expected));
    let starts: Vec<usize> = loaded.references().map(|it| it.name.start).collect();
    assert!(starts.is_sorted());
    assert_eq!((loaded.place_of(b"b"), loaded.place_of(b"z")), (Some(1), None));
}

#[test]
fn both_tables_say_where_a_term_starts() {
    let mut tables = Tables::for_bytes(KINDS.len());
    let rows = load(KINDS.as_bytes(), &mut tables).unwrap().row_count();
    let last = |table: &[u32]| table.chunks_exact(8).take(rows).map(|row| row[7]).collect::<Vec<_>>();
    assert_eq!(last(tables.surface()), last(tables.core()));
    assert!(tables.surface()[rows * 8..].iter().chain(&tables.core()[rows * 8..]).all(|word| *word == 0));
}
