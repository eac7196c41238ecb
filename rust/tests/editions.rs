//! The two editions of sources: what `arrow` is in each, and what every function makes of it.
use sulyterom::{
    Binding, Class, Comparison, Loader, Refusal, Row, Storage, SurfaceRow, Tables, Target, WORK_WORDS, binder, head,
    load, same, storage,
};

/// x is bound around two arrows; the rows of its references are 1, 2 and 5.
const SOURCE: &str =
    "(surface 0 2)(module m)(postulate f (pi x nat (arrow (arrow (ref x) (ref x)) (arrow nat (ref x)))))";
/// The same without arrows.
const SPELT: &str = "(surface 0 1)(module n)(postulate f (pi x nat (pi a (pi _ (ref x) (ref x)) (pi b nat (ref x)))))";

fn first(declarations: &str) -> Vec<u8> {
    format!("(surface 0 1)(module m){declarations}").into_bytes()
}

fn second(declarations: &str) -> Vec<u8> {
    format!("(surface 0 2)(module m){declarations}").into_bytes()
}

/// The refusal of loading, by its class and its offset.
fn refused(source: &[u8]) -> (Class, Option<usize>) {
    let Refusal { class, offset } = Loader::new().load(source).unwrap_err();
    (class, offset)
}

#[test]
fn an_arrow_is_a_pi_in_the_core() {
    let mut loader = Loader::new();
    let loaded = loader.load(SOURCE.as_bytes()).unwrap();
    let arrows = [(3, 1, 2), (6, 4, 5), (7, 3, 6)];
    for (row, domain, codomain) in arrows {
        assert_eq!(loaded.surface_row(row), Some(SurfaceRow::Arrow { domain, codomain }));
        assert_eq!(loaded.row(row), Some(Row::Pi { domain, codomain }));
    }
    assert_eq!(loaded.surface_rows().filter(|row| matches!(row, SurfaceRow::Arrow { .. })).count(), arrows.len());
    assert_eq!((loaded.offset(3), loaded.term(6)), (Some(53), Some(&b"(arrow nat (ref x))"[..])));
    let listing = "nodes 9 declarations 1\n0 nat\n1 var 0\n2 var 1\n3 pi 1 2\n4 nat\n5 var 2\n6 pi 4 5\n7 pi 3 6\n8 pi 0 7\n\
                   0 postulate f 8\n";
    assert_eq!(loaded.to_string(), listing);
    assert_eq!(loader.list(SOURCE.as_bytes()).text, listing.as_bytes());
}

#[test]
fn it_binds_nothing_and_counts_in_its_codomain() {
    let mut tables = Tables::for_bytes(SOURCE.len());
    for (row, count) in [(1, 0), (2, 1), (5, 2)] {
        let bound = binder(SOURCE.as_bytes(), row, &mut tables).unwrap();
        assert_eq!(bound.binding, Binding::Local { count, row: 8 });
    }
    let mut loader = Loader::new();
    let counts = loader.load(SOURCE.as_bytes()).unwrap().references().map(|reference| reference.target);
    assert!(counts.eq([0, 1, 2].map(|count| Target::Var { count })));
    assert_eq!(refused(&second("(postulate a (arrow nat (ref _)))")), (Class::UnknownName, None));
    let hidden = second("(postulate _ nat)(postulate a (arrow nat (ref _)))");
    assert_eq!(loader.load(&hidden).unwrap().row(2), Some(Row::Global { place: 0 }));
}

#[test]
fn a_word_reserved_in_one_edition() {
    let source = first("(postulate arrow nat)(postulate a (pi arrow (ref arrow) (ref arrow)))");
    assert_eq!(Loader::new().load(&source).unwrap().row_count(), 4);
    assert_eq!(refused(&first("(postulate a (arrow nat nat))")), (Class::Malformed, Some(37)));
    assert_eq!(head(b"(surface 0 1)(module arrow)").unwrap().as_str(), "arrow");

    assert_eq!(refused(b"(surface 0 2)(module arrow)"), (Class::ReservedName, Some(21)));
    assert_eq!(head(b"(surface 0 2)(module arrow)").unwrap_err().class, Class::ReservedName);
    assert_eq!(refused(&second("(postulate arrow nat)")), (Class::ReservedName, Some(34)));
    assert_eq!(refused(&second("(postulate a (pi arrow nat nat))")), (Class::ReservedName, Some(40)));
    assert_eq!(refused(&second("(postulate a (ref arrow))")), (Class::ReservedName, Some(41)));
    assert_eq!(refused(&second("(postulate a (arrow x nat nat))")), (Class::Malformed, Some(43)));
    assert_eq!(head(SOURCE.as_bytes()).unwrap().as_str(), "m");
}

#[test]
fn versions() {
    assert_eq!(refused(b"(surface 0 2)"), (Class::Malformed, Some(13)));
    assert_eq!(refused(b"(surface 0 02)"), (Class::Malformed, Some(11)));
    for version in ["0 0", "0 3", "0 12", "0 20", "1 1", "1 2", "2 0"] {
        assert_eq!(refused(format!("(surface {version})]").as_bytes()), (Class::Version, None), "{version}");
    }
}

#[test]
fn the_same_core_across_editions() {
    let (mut tables, mut others) = (Tables::for_bytes(SOURCE.len()), Tables::for_bytes(SOURCE.len()));
    let mut asked = |one: &[u8], other: &[u8]| same(one, other, &mut tables, &mut others);
    assert_eq!(asked(SOURCE.as_bytes(), SPELT.as_bytes()), Comparison::Same);
    assert_eq!(asked(SPELT.as_bytes(), SOURCE.as_bytes()), Comparison::Same);
    // a name that is used is no arrow's
    let caught = SPELT.replace("(pi b nat", "(pi x nat");
    assert_eq!(asked(SOURCE.as_bytes(), caught.as_bytes()), Comparison::Different { declaration: 0 });
    let free = SPELT.replace("(pi _ (ref x)", "(pi x (ref x)");
    assert_eq!(asked(SOURCE.as_bytes(), free.as_bytes()), Comparison::Different { declaration: 0 });
}

#[test]
fn its_storage_and_its_text() {
    let told = Storage { rows: 9, declarations: 1, frames: 3 };
    assert_eq!(storage(SOURCE.as_bytes(), &mut [0; WORK_WORDS]), Ok(told));
    let mut tables = Tables::for_source(SOURCE.as_bytes()).unwrap();
    assert_eq!(load(SOURCE.as_bytes(), &mut tables).unwrap().row_count(), 9);

    let mut loader = Loader::new();
    let text = loader.print(SOURCE.as_bytes()).unwrap();
    assert_eq!(text, loader.print(SPELT.as_bytes()).unwrap());
    assert!(!text.windows(5).any(|part| part == b"arrow"));
    assert_eq!(loader.read_canonical(&text).unwrap().row(3).unwrap().to_string(), "pi 1 2");
    // an edition of sources is none of core text
    let other = String::from_utf8(text).unwrap().replace("(format 0 1)", "(format 0 2)");
    assert_eq!(loader.read_core(other.as_bytes()).unwrap_err().class, Class::Version);
}
