//! Which declaration depends on which, the row that shows it, and what the question leaves.
use sulyterom::{Class, Loader, Refusal, Tables, depends, load};

/// b and c are named in types, c in a body; d is reached by its own body, and e through the type of d alone, since the body
/// of d is opaque. The b bound in f is no declaration. Several rows of b, d, i and k lead to a, and not all of them name it.
const SOURCE: &[u8] = b"\
(surface 0 1)(module m)
(postulate a (universe 0))
(postulate b (pi x (ref a) (ref a)))
(transparent c nat (app (ref b) zero))
(opaque d (ref b) (app (ref c) (pair (ref a) zero)))
(transparent e nat (ref d))
(postulate f (pi b nat (ref b)))
(opaque g nat (ref c))
(postulate h (ref g))
(postulate i (pi x (ref b) (ref a)))
(transparent k (ref a) (app (ref i) (ref c)))
";

/// The places that each declaration depends on, and the first row by which it does.
const DEPENDS: [&[(usize, usize)]; 10] = [
    &[],
    &[(0, 1)],
    &[(0, 5), (1, 5)],
    &[(0, 8), (1, 8), (2, 9)],
    &[(0, 15), (1, 15), (3, 15)],
    &[],
    &[(0, 20), (1, 20), (2, 20)],
    &[(6, 21)],
    &[(0, 22), (1, 22)],
    &[(0, 25), (1, 26), (2, 27), (8, 26)],
];
const COUNT: usize = DEPENDS.len();

/// The first row by which i depends on j.
fn first_row(i: usize, j: usize) -> Option<usize> {
    DEPENDS[i].iter().find(|(place, _)| *place == j).map(|(_, row)| *row)
}

#[test]
fn every_pair() {
    let mut tables = Tables::for_bytes(SOURCE.len());
    for (i, j) in (0..COUNT).flat_map(|i| (0..COUNT).map(move |j| (i, j))) {
        assert_eq!(depends(SOURCE, i, j, &mut tables).unwrap().row, first_row(i, j), "{i} on {j}");
    }
}

#[test]
fn of_several_rows_the_first_is_shown() {
    // rows 0 and 1 are those of a and b; the third declaration is asked about the first
    let shown = |third: &str| {
        let source = format!("(surface 0 1)(module m)(postulate a nat)(postulate b (ref a)){third}");
        Loader::new().depends(source.as_bytes(), 2, 0).unwrap().row
    };
    assert_eq!(shown("(postulate c (pi x (ref a) (ref a)))"), Some(2));
    // row 2 names b, and row 3 a itself
    assert_eq!(shown("(postulate c (pi x (ref b) (ref a)))"), Some(2));
    assert_eq!(shown("(opaque c (ref b) (ref a))"), Some(2));
    assert_eq!(shown("(opaque c nat (app (ref b) (ref a)))"), Some(3));
    // the type comes before the body
    assert_eq!(shown("(transparent c (pi x nat (ref a)) (ref a))"), Some(3));
    assert_eq!(shown("(transparent c nat (ref a))"), Some(3));
}

#[test]
fn dependents_are_those_with_a_yes() {
    let mut loader = Loader::new();
    for j in 0..COUNT {
        let expected: Vec<usize> = (0..COUNT).filter(|i| first_row(*i, j).is_some()).collect();
        assert_eq!(loader.dependents(SOURCE, j), Ok(expected), "of {j}");
    }
}

#[test]
fn dependents_of_no_declaration_and_of_no_module() {
    let refused = Refusal { class: Class::NoDeclaration, offset: None };
    for j in [COUNT, 1 << 32, usize::MAX] {
        assert_eq!(Loader::new().dependents(SOURCE, j), Err(refused), "of {j}");
    }
    assert_eq!(Loader::new().dependents(b"(surface 0 1)(module m)", 0), Err(refused));
    let malformed = Refusal { class: Class::Malformed, offset: Some(1) };
    assert_eq!(Loader::new().dependents(b"(", 0), Err(malformed));
    assert_eq!(Loader::new().dependents(b"(", usize::MAX), Err(malformed));
}

#[test]
fn dependents_of_a_source_that_needs_the_most() {
    // the least bytes for a declaration, so that more records are needed than is likely
    let names = (b'A'..=b'Z').map(char::from);
    let declarations: String = names.map(|name| format!("(postulate {name} nat)")).collect();
    let source = format!("(surface 0 1)(module m){declarations}(postulate a (ref A))(opaque b (ref a) (ref Z))");
    let mut loader = Loader::new();
    assert_eq!(loader.dependents(source.as_bytes(), 0), Ok(vec![26, 27]));
    assert_eq!(loader.dependents(source.as_bytes(), 25), Ok(vec![27]));
    assert_eq!(loader.dependents(source.as_bytes(), 27), Ok(vec![]));
}

#[test]
fn a_yes_and_a_no_leave_what_loading_leaves() {
    let mut tables = Tables::with_sizes(40, 10);
    load(SOURCE, &mut tables).unwrap();
    // itself, through another, and not
    for (j, yes) in [(2, true), (0, true), (6, false)] {
        let mut asked = Tables::from_words(vec![7; 320], vec![7; 320], vec![7; 50], vec![7; 16_384]);
        assert_eq!(depends(SOURCE, 3, j, &mut asked).unwrap().row.is_some(), yes);
        assert_eq!(asked, tables);
    }
}

#[test]
fn an_answer_shows_what_was_loaded() {
    let mut alone = Loader::new();
    let loaded = alone.load(SOURCE).unwrap();
    // with words to spare, none, and tables that are used again
    let (rows, declarations) = (loaded.row_count(), loaded.declaration_count());
    for (rows, declarations) in [(rows, declarations), (rows + 1, declarations + 1), (10 * rows, 10 * declarations)] {
        let mut tables = Tables::with_sizes(rows, declarations);
        let answer = depends(SOURCE, 1, 0, &mut tables).unwrap();
        assert!(answer.loaded.rows().eq(loaded.rows()));
        assert!(answer.loaded.surface_rows().eq(loaded.surface_rows()));
        assert!(answer.loaded.declarations().eq(loaded.declarations()));
    }
}

#[test]
fn places_without_a_declaration() {
    let refused = Refusal { class: Class::NoDeclaration, offset: None };
    for (i, j) in [(COUNT, 0), (0, COUNT), (COUNT, COUNT), (usize::MAX, 0), (0, usize::MAX)] {
        let mut tables = Tables::with_sizes(40, 10);
        assert_eq!(depends(SOURCE, i, j, &mut tables).unwrap_err(), refused, "{i} on {j}");
        assert_eq!(tables, Tables::with_sizes(40, 10));
    }
    let nothing = b"(surface 0 1)(module m)";
    assert_eq!(depends(nothing, 0, 0, &mut Tables::with_sizes(0, 0)).unwrap_err(), refused);
}

#[test]
fn loading_comes_first() {
    let mut tables = Tables::with_sizes(2, 10);
    assert_eq!(depends(b"(", 9, 9, &mut tables).unwrap_err().to_string(), "refused 1 at 1: malformed source");
    assert_eq!(depends(SOURCE, 9, 9, &mut tables).unwrap_err().class, Class::SurfaceFull);
    assert_eq!(tables, Tables::with_sizes(2, 10));
}
