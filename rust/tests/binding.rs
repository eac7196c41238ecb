//! What binds each reference, what else can be asked of, and what the question leaves.
use sulyterom::{Binding, Class, Loader, Refusal, Row, SurfaceRow, Tables, binder, load};

/// x is a declaration and a binder, `_` both as well. Behind each line stand the rows of its references.
const SOURCE: &[u8] = b"\
(surface 0 1)(module m)
(postulate x nat)
(postulate _ (ref x))                                            ; 1
(transparent y (pi x (ref x) (sigma x (ref x) (ref x)))          ; 2, 3, 4
  (lam y (lam x (lam y (app (ref y) (app (ref x) (ref _)))))))   ; 7, 8, 9
(opaque z (pi _ (pi _ (ref _) (ref _)) (lam x (pair (ref _) (ref y)))) ; 15, 16, 18, 19
  (app (ref _) (ref x)))                                         ; 23, 24
";

const fn local(count: usize, row: usize) -> Binding {
    Binding::Local { count, row }
}

const fn global(place: usize) -> Binding {
    Binding::Global { place }
}

/// The row of each reference and what binds it.
const BINDINGS: [(usize, Binding); 13] = [
    (1, global(0)),
    // in its own domain x is the declaration, in the next one the outer x, and behind that the inner one
    (2, global(0)),
    (3, local(0, 6)),
    (4, local(0, 5)),
    // the inner y, and x from inside of it
    (7, local(0, 12)),
    (8, local(1, 13)),
    (9, global(1)),
    // `_` is a name like others
    (15, global(1)),
    (16, local(0, 17)),
    (18, local(1, 22)),
    (19, global(2)),
    (23, global(1)),
    (24, global(0)),
];
const ROWS: usize = 26;

const NO_REFERENCE: Refusal = Refusal { class: Class::NoDeclaration, offset: None };

#[test]
fn every_row() {
    let mut tables = Tables::for_bytes(SOURCE.len());
    assert_eq!(load(SOURCE, &mut tables).unwrap().row_count(), ROWS);
    for row in 0..ROWS {
        let expected = BINDINGS.iter().find(|(reference, _)| *reference == row).map(|(_, binding)| *binding);
        let found = binder(SOURCE, row, &mut tables).map(|bound| bound.binding);
        assert_eq!(found, expected.ok_or(NO_REFERENCE), "row {row}");
    }
}

#[test]
fn the_row_is_of_a_form_with_the_name() {
    let mut loader = Loader::new();
    for (reference, expected) in BINDINGS {
        let bound = loader.binder(SOURCE, reference).unwrap();
        let loaded = bound.loaded;
        let Some(SurfaceRow::Ref { name }) = loaded.surface_row(reference) else { panic!("row {reference}") };
        assert_eq!(bound.binding, expected, "row {reference}");
        let (row, named) = match bound.binding {
            Binding::Local { count, row } => {
                assert!(row > reference && loaded.offset(row) < loaded.offset(reference));
                let (SurfaceRow::Pi { binder, .. } | SurfaceRow::Sigma { binder, .. } | SurfaceRow::Lam { binder, .. }) =
                    loaded.surface_row(row).unwrap()
                else {
                    panic!("row {row} binds nothing")
                };
                (Row::Var { count }, binder)
            }
            Binding::Global { place } => (Row::Global { place }, loaded.declaration(place).unwrap().name),
        };
        assert_eq!((loaded.row(reference), named.bytes), (Some(row), name.bytes), "row {reference}");
    }
}

#[test]
fn an_answer_leaves_what_loading_leaves() {
    let mut tables = Tables::with_sizes(30, 7);
    load(SOURCE, &mut tables).unwrap();
    for row in [3, 9] {
        let mut asked = Tables::from_words(vec![7; 240], vec![7; 240], vec![7; 35], vec![7; 16_384]);
        assert!(binder(SOURCE, row, &mut asked).is_ok());
        assert_eq!(asked, tables);
    }
}

#[test]
fn an_answer_shows_what_was_loaded() {
    let mut alone = Loader::new();
    let loaded = alone.load(SOURCE).unwrap();
    // with no words to spare, with some, and with many
    for (rows, declarations) in [(ROWS, 4), (ROWS + 1, 5), (10 * ROWS, 40)] {
        let mut tables = Tables::with_sizes(rows, declarations);
        let bound = binder(SOURCE, 4, &mut tables).unwrap();
        assert!(bound.loaded.rows().eq(loaded.rows()));
        assert!(bound.loaded.surface_rows().eq(loaded.surface_rows()));
        assert!(bound.loaded.declarations().eq(loaded.declarations()));
    }
}

#[test]
fn a_loader_shows_nothing_of_the_source_before() {
    let declarations: String = (0..100).map(|at| format!("(postulate a{at} (fst nat))")).collect();
    let long = format!("(surface 0 1)(module m){declarations}");
    let short = b"(surface 0 1)(module m)(postulate x nat)(postulate y (ref x))";
    let mut loader = Loader::new();
    assert_eq!(loader.load(long.as_bytes()).unwrap().row_count(), 200);
    let bound = loader.binder(short, 1).unwrap();
    assert_eq!((bound.loaded.row_count(), bound.loaded.declaration_count()), (2, 2));
    assert_eq!(loader.load(long.as_bytes()).unwrap().row_count(), 200);
    let answer = loader.depends(short, 1, 0).unwrap();
    assert_eq!((answer.loaded.row_count(), answer.loaded.declaration_count()), (2, 2));
}

#[test]
fn rows_that_are_no_reference() {
    // behind the last, and such that eight times the number is that of another row
    let behind = [ROWS, ROWS + 1, 1 << 32 | 4, 1 << 61 | 4, usize::MAX];
    for row in [0, 5, 6, 10, 13, ROWS - 1].into_iter().chain(behind) {
        let mut tables = Tables::from_words(vec![7; 240], vec![7; 240], vec![7; 35], vec![7; 16_384]);
        assert_eq!(binder(SOURCE, row, &mut tables).unwrap_err(), NO_REFERENCE, "row {row}");
        assert_eq!(tables, Tables::with_sizes(30, 7));
    }
    let nothing = b"(surface 0 1)(module m)";
    assert_eq!(binder(nothing, 0, &mut Tables::with_sizes(0, 0)).unwrap_err(), NO_REFERENCE);
    assert_eq!(Loader::new().binder(nothing, 0).unwrap_err(), NO_REFERENCE);
}

#[test]
fn loading_comes_first() {
    let mut tables = Tables::with_sizes(2, 7);
    let refused = |source: &[u8], row: usize, tables: &mut Tables| binder(source, row, tables).unwrap_err();
    assert_eq!(refused(b"(", usize::MAX, &mut tables).to_string(), "refused 1 at 1: malformed source");
    assert_eq!(refused(SOURCE, usize::MAX, &mut tables).class, Class::SurfaceFull);
    assert_eq!(refused(SOURCE, 1, &mut tables).class, Class::SurfaceFull);
    // a reference to nothing is no reference of a loaded source
    let unknown = b"(surface 0 1)(module m)(postulate x (ref y))";
    assert_eq!(refused(unknown, 0, &mut tables).class, Class::UnknownName);
    assert_eq!(refused(unknown, 1, &mut tables).class, Class::UnknownName);
    assert_eq!(tables, Tables::with_sizes(2, 7));
}
