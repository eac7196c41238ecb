//! What a source needs, and loading with just that and with less.
use sulyterom::{
    Class, LONGEST_SOURCE, Loader, MOST_FRAMES, Refusal, Storage, Tables, WORK_WORDS, list, load, storage,
};

const HEAD: &str = "(surface 0 1)(module m)";
const INPUT: &str = "(surface 0 1)(module m)(postulate x nat)(postulate y (pi x (ref x) (ref x)))";

/// Asks with a work area that holds something, and sees that it is 0 afterwards.
fn asked(source: &str, words: usize) -> Result<Storage, Refusal> {
    let mut work = vec![7; words];
    let told = storage(source.as_bytes(), &mut work);
    assert_eq!(work, vec![0; words], "left after {told:?}");
    if words == WORK_WORDS {
        assert_eq!(Loader::new().storage(source.as_bytes()), told);
    }
    told
}

fn figures(declarations: &str) -> [usize; 3] {
    let Storage { rows, declarations, frames } = asked(&format!("{HEAD}{declarations}"), WORK_WORDS).unwrap();
    [rows, declarations, frames]
}

fn refused(source: &str) -> (Class, Option<usize>) {
    let Refusal { class, offset } = asked(source, WORK_WORDS).unwrap_err();
    assert_eq!(Tables::for_source(source.as_bytes()).unwrap_err(), Refusal { class, offset });
    (class, offset)
}

/// So many forms around a term.
fn nested(forms: usize, term: &str) -> String {
    format!("{}{term}{}", "(fst ".repeat(forms), ")".repeat(forms))
}

#[test]
fn a_row_for_each_term_and_a_frame_for_each_form_around_it() {
    assert_eq!(figures(""), [0, 0, 0]);
    assert_eq!(figures("(postulate a nat)"), [1, 1, 0]);
    assert_eq!(figures("(postulate a (universe 0))"), [1, 1, 0]);
    assert_eq!(figures("(postulate a (ref q))(postulate a nat)"), [2, 2, 0]);
    assert_eq!(figures(&INPUT[HEAD.len()..]), [4, 2, 1]);
    assert_eq!(figures("(postulate a (pair (fst star) star))"), [4, 1, 2]);
    // the most of any type or body
    assert_eq!(figures("(opaque a (fst (fst star)) (fst star))(postulate b nat)"), [6, 2, 2]);
    assert_eq!(figures("(opaque a (fst star) (fst (fst star)))(postulate b nat)"), [6, 2, 2]);
    assert_eq!(figures(&format!("(postulate a {})", nested(MOST_FRAMES, "(ref q)"))), [513, 1, MOST_FRAMES]);
}

#[test]
fn refused_as_loading_refuses() {
    assert_eq!(refused(""), (Class::Malformed, Some(0)));
    assert_eq!(refused("(surface 1 0) ]"), (Class::Version, None));
    assert_eq!(refused(&format!("{HEAD}(postulate nat nat)")), (Class::ReservedName, Some(34)));
    assert_eq!(refused(&format!("{HEAD}(postulate a {})", nested(513, "star"))), (Class::Frames, None));
    assert_eq!(refused(&" ".repeat(LONGEST_SOURCE + 1)), (Class::LongSource, None));
    assert_eq!(refused(&" ".repeat(LONGEST_SOURCE)), (Class::Malformed, Some(LONGEST_SOURCE)));
    assert_eq!(refused(&format!("\u{feff}{HEAD}")), (Class::Malformed, Some(0)));
    let short = Refusal { class: Class::WorkShort, offset: None };
    for words in [0, 1, WORK_WORDS - 1] {
        for source in ["", INPUT, &" ".repeat(LONGEST_SOURCE + 1)] {
            assert_eq!(asked(source, words), Err(short));
        }
    }
    assert_eq!(asked(INPUT, WORK_WORDS + 9), Ok(Storage { rows: 4, declarations: 2, frames: 1 }));
}

#[test]
fn loading_with_just_that_and_with_less() {
    let sources = [
        INPUT.to_owned(),
        format!("{HEAD}(opaque a nat (succ (succ zero)))(postulate b unit)(transparent c (ref b) (ref a))"),
        format!("{HEAD}(postulate a {})", nested(MOST_FRAMES, "star")),
    ];
    for source in sources.iter().map(String::as_bytes) {
        let Storage { rows, declarations, .. } = Loader::new().storage(source).unwrap();
        let mut just = Tables::for_source(source).unwrap();
        assert_eq!(just, Tables::with_sizes(rows, declarations));
        let mut more = Tables::for_bytes(source.len());
        assert_eq!(list(source, &mut just), list(source, &mut more));
        let (just, more) = (load(source, &mut just).unwrap(), load(source, &mut more).unwrap());
        assert_eq!((just.row_count(), just.declaration_count()), (rows, declarations));
        assert!(just.rows().eq(more.rows()) && just.surface_rows().eq(more.surface_rows()));
        assert!(just.declarations().eq(more.declarations()));
        let class = |rows, declarations| load(source, &mut Tables::with_sizes(rows, declarations)).unwrap_err().class;
        assert_eq!(class(rows - 1, declarations), Class::SurfaceFull);
        assert_eq!(class(rows, declarations - 1), Class::DeclarationsFull);
        assert_eq!(class(rows - 1, declarations - 1), Class::DeclarationsFull);
    }
}

#[test]
fn names_are_left_to_loading() {
    for (declarations, class) in [
        ("(postulate a nat)(postulate a nat)", Class::DuplicateName),
        ("(postulate a (ref q))(postulate b nat)", Class::UnknownName),
    ] {
        let source = format!("{HEAD}{declarations}");
        let mut tables = Tables::for_source(source.as_bytes()).unwrap();
        assert_eq!(tables, Tables::with_sizes(2, 2));
        assert_eq!(load(source.as_bytes(), &mut tables).unwrap_err().class, class);
    }
}

#[test]
fn a_loader_is_used_again() {
    let mut loader = Loader::new();
    for _ in 0..3 {
        assert_eq!(loader.load(INPUT.as_bytes()).unwrap().row_count(), 4);
        assert_eq!(loader.storage(INPUT.as_bytes()).unwrap().words(), [32, 32, 10, WORK_WORDS]);
        assert_eq!(loader.storage(b"(").unwrap_err().offset, Some(1));
    }
}
