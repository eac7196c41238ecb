//! Every class of refusal, with its place and its words, and what is left in the tables.
use std::collections::HashSet;
use std::error::Error;
use sulyterom::{Class, LONGEST_SOURCE, MOST_FRAMES, RECORD_WORDS, ROW_WORDS, Refusal, Tables, WORK_WORDS, load};

const HEAD: &str = "(surface 0 1)(module m)";
const INPUT: &str = "(surface 0 1)(module m)(postulate x nat)(postulate y (pi x (ref x) (ref x)))";

/// Loads into tables of these lengths in words that hold no 0, and sees that a refusal leaves nothing else.
fn refused_with(source: &[u8], lengths: [usize; 4]) -> Refusal {
    let [surface, core, declarations, work] = lengths.map(|length| vec![7; length]);
    let mut tables = Tables::from_words(surface, core, declarations, work);
    let refusal = load(source, &mut tables).expect_err("a refusal");
    for (words, length) in tables.into_words().iter().zip(lengths) {
        assert_eq!(*words, vec![0; length], "left by {refusal}");
    }
    refusal
}

fn refused(source: &[u8]) -> Refusal {
    refused_with(source, [600 * ROW_WORDS, 600 * ROW_WORDS, 3 * RECORD_WORDS, WORK_WORDS])
}

fn nowhere(class: Class) -> Refusal {
    Refusal { class, offset: None }
}

fn at(class: Class, offset: usize) -> Refusal {
    Refusal { class, offset: Some(offset) }
}

/// So many forms around a star.
fn nested(forms: usize) -> String {
    format!("{HEAD}(postulate a {}star{})", "(fst ".repeat(forms), ")".repeat(forms))
}

#[test]
fn malformed() {
    assert_eq!(refused(b""), at(Class::Malformed, 0));
    assert_eq!(refused(b"("), at(Class::Malformed, 1));
    assert_eq!(refused(b"(surface 00 1)"), at(Class::Malformed, 9));
    assert_eq!(refused(format!("{HEAD}(postulate a-b nat)").as_bytes()), at(Class::Malformed, 34));
    // not UTF-8, and a byte order mark
    assert_eq!(refused(b";\xc3\n"), at(Class::Malformed, 1));
    assert_eq!(refused(format!("\u{feff}{HEAD}").as_bytes()), at(Class::Malformed, 0));
    // reading is finished before names are looked at
    assert_eq!(refused(format!("{HEAD}(postulate b (ref q))(").as_bytes()), at(Class::Malformed, 45));
}

#[test]
fn version() {
    assert_eq!(refused(b"(surface 1 0) ]"), nowhere(Class::Version));
}

#[test]
fn names() {
    let source = |declarations: &str| refused(format!("{HEAD}{declarations}").as_bytes());
    assert_eq!(source("(postulate nat-elim nat)"), at(Class::ReservedName, 34));
    assert_eq!(source("(postulate a nat)(postulate a (ref q))"), nowhere(Class::DuplicateName));
    assert_eq!(source("(postulate a (ref q))(postulate a nat)"), nowhere(Class::UnknownName));
    // a declaration does not see itself, nor a binder its own domain
    assert_eq!(source("(postulate a (ref a))"), nowhere(Class::UnknownName));
    assert_eq!(source("(postulate a (pi x (ref x) nat))"), nowhere(Class::UnknownName));
}

#[test]
fn limits_of_the_source() {
    let padded = |length: usize| format!("{HEAD}{}", " ".repeat(length - HEAD.len()));
    let mut tables = Tables::with_sizes(600, 3);
    assert_eq!(load(padded(LONGEST_SOURCE).as_bytes(), &mut tables).unwrap().row_count(), 0);
    assert_eq!(refused(padded(LONGEST_SOURCE + 1).as_bytes()), nowhere(Class::LongSource));
    assert_eq!(load(nested(MOST_FRAMES).as_bytes(), &mut tables).unwrap().row_count(), MOST_FRAMES + 1);
    assert_eq!(refused(nested(MOST_FRAMES + 1).as_bytes()), nowhere(Class::Frames));
}

#[test]
fn limits_of_the_tables() {
    let with = |lengths| refused_with(INPUT.as_bytes(), lengths);
    // words left over behind the last whole row or record do not count
    assert_eq!(with([31, 32, 10, WORK_WORDS]), nowhere(Class::SurfaceFull));
    assert_eq!(with([32, 32, 9, WORK_WORDS]), nowhere(Class::DeclarationsFull));
    assert_eq!(with([32, 31, 10, WORK_WORDS]), nowhere(Class::CoreShort));
    assert_eq!(with([32, 32, 10, WORK_WORDS - 1]), nowhere(Class::WorkShort));
    assert_eq!(with([0, 0, 0, 0]), nowhere(Class::WorkShort));
    assert_eq!(with([0, 0, 0, WORK_WORDS]), nowhere(Class::DeclarationsFull));
}

#[test]
fn shown_as_the_listing_shows_them_and_a_sentence() {
    let shown = |refusal: Refusal| refusal.to_string();
    assert_eq!(shown(at(Class::Malformed, 7)), "refused 1 at 7: malformed source");
    let version = "source version other than 0 1 and 0 2, or core text version other than 0 1";
    assert_eq!(shown(nowhere(Class::Version)), format!("refused 2: {version}"));
    assert_eq!(shown(at(Class::ReservedName, 0)), "refused 3 at 0: reserved word where a name must stand");
    assert_eq!(shown(nowhere(Class::DuplicateName)), "refused 4: declaration name used before");
    assert_eq!(shown(nowhere(Class::UnknownName)), "refused 5: unknown name");
    let long = "source over 65,535 bytes, or core text over 4,294,967,295";
    assert_eq!(shown(nowhere(Class::LongSource)), format!("refused 6: {long}"));
    assert_eq!(shown(nowhere(Class::Frames)), "refused 7: more than 512 forms open in one term");
    assert_eq!(shown(nowhere(Class::SurfaceFull)), "refused 8: surface row table full");
    assert_eq!(shown(nowhere(Class::DeclarationsFull)), "refused 9: declaration list full");
    assert_eq!(shown(nowhere(Class::CoreShort)), "refused 10: core table has fewer rows than were read");
    assert_eq!(shown(nowhere(Class::WorkShort)), "refused 11: work area under 16,384 words");
    let question = "no declaration at a place asked of, or no reference at a row";
    assert_eq!(shown(nowhere(Class::NoDeclaration)), format!("refused 12: {question}"));
    assert_eq!(shown(at(Class::CoreText, 7)), "refused 13 at 7: malformed or noncanonical core text");
    assert_eq!(shown(nowhere(Class::CoreText)), "refused 13: malformed or noncanonical core text");
    assert_eq!(shown(nowhere(Class::TextShort)), "refused 14: text buffer shorter than the text");
}

#[test]
fn classes_have_their_numbers_and_words_of_their_own() {
    assert!(Class::ALL.iter().map(|class| class.number()).eq(1..=Class::ALL.len() as u8));
    let words: HashSet<String> = Class::ALL.iter().map(Class::to_string).collect();
    assert_eq!(words.len(), Class::ALL.len());
}

#[test]
fn a_refusal_is_an_error() {
    fn rows(source: &[u8]) -> Result<usize, Box<dyn Error>> {
        Ok(load(source, &mut Tables::for_bytes(source.len()))?.row_count())
    }
    assert_eq!(rows(INPUT.as_bytes()).unwrap(), 4);
    let error = rows(b"(surface 0 1)").unwrap_err();
    assert_eq!(error.downcast_ref::<Refusal>(), Some(&at(Class::Malformed, 13)));
}
