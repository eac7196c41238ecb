//! Both readers: the same answers, refusals, listings and words of every table, of all classes that loading has and with
//! tables of many lengths that were full of rubbish.
use sulyterom::{
    Class, LONGEST_SOURCE, Listing, Loader, MOST_FRAMES, RECORD_WORDS, ROW_WORDS, Reader, Refusal, Tables, WORK_WORDS,
    list, list_by, load, load_by,
};

const HEAD: &str = "(surface 0 1)(module m)";
const SECOND: &str = "(surface 0 2)(module m)";
const INPUT: &str = "(postulate x nat)(postulate y (pi x (ref x) (ref x)))";
const READERS: [Reader; 2] = [Reader::Frames, Reader::Plain];

/// Every form that both editions have.
const FORMS: &str = "(opaque a (universe 0) (j (fst nat) (snd unit) (succ star) (refl zero) (fst empty) (universe 12)))\
    (transparent b (pi x nat (sigma y (ref x) (id nat (ref x) (ref y)))) (lam z (app (fst (ref a)) (pair (ref z) nat))))\
    (postulate c (ann (nat-elim nat zero (snd star) unit) (unit-elim unit star (empty-elim nat (ref b)))))";

/// Lengths in words of surface rows, core rows, declarations and work area.
type Lengths = [usize; 4];

/// Room for every source here that is not to be refused for want of it.
const AMPLE: Lengths = [600 * ROW_WORDS + 3, 600 * ROW_WORDS + 1, 4 * RECORD_WORDS + 2, WORK_WORDS + 5];

fn rubbish(lengths: Lengths) -> Tables {
    let [surface, core, declarations, work] = lengths.map(|length| vec![0xa5a5_a5a5; length]);
    Tables::from_words(surface, core, declarations, work)
}

/// What one reader answers and leaves: the counts or the refusal, the words, and the listing with the words behind that.
fn left(source: &[u8], lengths: Lengths, reader: Reader) -> (Result<[usize; 2], Refusal>, Tables, Listing, Tables) {
    let (mut loaded, mut listed) = (rubbish(lengths), rubbish(lengths));
    let told = load_by(source, &mut loaded, reader).map(|loaded| [loaded.row_count(), loaded.declaration_count()]);
    let listing = list_by(source, &mut listed, reader);
    (told, loaded, listing, listed)
}

/// The answer, which both readers must give, with the same words left; the work area holds 0, and after a refusal every table.
fn both(source: &[u8], lengths: Lengths) -> Result<[usize; 2], Refusal> {
    let [frames, plain] = READERS.map(|reader| left(source, lengths, reader));
    assert_eq!(frames, plain, "{lengths:?} words for {}", String::from_utf8_lossy(source));
    let (told, tables, listing, listed) = plain;
    assert_eq!((tables.work(), &tables), (&vec![0; lengths[3]][..], &listed));
    if let Err(refusal) = told {
        assert_eq!(listing.refusal, Some(refusal));
        assert_eq!(tables.into_words(), lengths.map(|length| vec![0; length]), "left by {refusal}");
    }
    told
}

fn accepted(declarations: &str, rows: usize, count: usize) {
    for head in [HEAD, SECOND] {
        assert_eq!(both(format!("{head}{declarations}").as_bytes(), AMPLE), Ok([rows, count]));
    }
}

/// A refusal in either edition, with the place where the class has one.
fn refused(declarations: &str, class: Class, offset: Option<usize>) {
    for head in [HEAD, SECOND] {
        assert_eq!(both(format!("{head}{declarations}").as_bytes(), AMPLE), Err(Refusal { class, offset }));
    }
}

/// So many forms, each the last argument of the one before, around a star.
fn nested(forms: usize, opening: &str) -> String {
    format!("(postulate a {}star{})", opening.repeat(forms), ")".repeat(forms))
}

#[test]
fn accepted_sources() {
    accepted("", 0, 0);
    accepted(INPUT, 4, 2);
    accepted(FORMS, 41, 3);
    let arrows = format!("{SECOND}(postulate f (pi x nat (arrow (ref x) (arrow nat (ref x)))))");
    assert_eq!(both(arrows.as_bytes(), AMPLE), Ok([7, 1]));
    let padded = format!("{HEAD}{}", " ".repeat(LONGEST_SOURCE - HEAD.len()));
    assert_eq!(both(padded.as_bytes(), AMPLE), Ok([0, 0]));
}

#[test]
fn refusals_of_the_source() {
    refused("(postulate x nat", Class::Malformed, Some(39));
    refused("(postulate x (fst nat zero))", Class::Malformed, Some(45));
    refused("(postulate x (j nat nat nat nat nat))", Class::Malformed, Some(58));
    refused("(postulate x (universe 01))", Class::Malformed, Some(46));
    refused("(postulate x nat)]", Class::Malformed, Some(40));
    refused("(postulate x (pi nat nat nat))", Class::ReservedName, Some(40));
    refused("(postulate a nat)(postulate a (ref q))", Class::DuplicateName, None);
    refused("(postulate a (pi x (ref x) nat))", Class::UnknownName, None);
    refused(&" ".repeat(LONGEST_SOURCE), Class::LongSource, None);
    let at = |class, offset| Err(Refusal { class, offset });
    assert_eq!(both(b"", AMPLE), at(Class::Malformed, Some(0)));
    assert_eq!(both(b";\xc3\n", AMPLE), at(Class::Malformed, Some(1)));
    assert_eq!(both(b"\xef\xbb\xbf(surface 0 1)", AMPLE), at(Class::Malformed, Some(0)));
    assert_eq!(both(b"(surface 0 3) ]", AMPLE), at(Class::Version, None));
    let arrow = "(postulate f (arrow nat nat))";
    assert_eq!(both(format!("{HEAD}{arrow}").as_bytes(), AMPLE), at(Class::Malformed, Some(37)));
}

#[test]
fn as_deep_as_may_be() {
    for (opening, rows) in [("(fst ", 1), ("(id nat nat ", 3), ("(j nat nat nat nat nat ", 6)] {
        let lengths = [4_000 * ROW_WORDS, 4_000 * ROW_WORDS, RECORD_WORDS, WORK_WORDS];
        let deep = |forms| both(format!("{HEAD}{}", nested(forms, opening)).as_bytes(), lengths);
        assert_eq!(deep(MOST_FRAMES), Ok([MOST_FRAMES * rows + 1, 1]));
        assert_eq!(deep(MOST_FRAMES + 1), Err(Refusal { class: Class::Frames, offset: None }));
    }
    // a form too many is refused behind its word and its binder, which must be such, and before its terms
    let behind = |end: &str| format!("(postulate a {}{end}", "(fst ".repeat(MOST_FRAMES));
    refused(&behind("(fst ]"), Class::Frames, None);
    refused(&behind("(fst]"), Class::Malformed, Some(2_600));
    refused(&behind("(first"), Class::Malformed, Some(2_597));
    refused(&behind("(ref]"), Class::Malformed, Some(2_600));
    refused(&behind("(pi x ]"), Class::Frames, None);
    refused(&behind("(lam nat ]"), Class::ReservedName, Some(2_601));
}

#[test]
fn refusals_of_the_tables() {
    let with = |lengths| both(format!("{HEAD}{INPUT}").as_bytes(), lengths).map_err(|refusal| refusal.class);
    assert_eq!(with([32, 32, 10, WORK_WORDS]), Ok([4, 2]));
    assert_eq!(with([31, 32, 10, WORK_WORDS]), Err(Class::SurfaceFull));
    assert_eq!(with([32, 32, 9, WORK_WORDS]), Err(Class::DeclarationsFull));
    assert_eq!(with([24, 32, 9, WORK_WORDS]), Err(Class::DeclarationsFull));
    assert_eq!(with([7, 32, 9, WORK_WORDS]), Err(Class::SurfaceFull));
    assert_eq!(with([32, 31, 10, WORK_WORDS]), Err(Class::CoreShort));
    // it is asked for though only frames would stand there
    for work in [0, 1, 100, WORK_WORDS - 1] {
        assert_eq!(with([32, 32, 10, work]), Err(Class::WorkShort));
    }
}

/// Whatever the tables are, and wherever the source ends.
#[test]
fn every_size_and_every_beginning() {
    let body = "(lam _ (lam y (fst (ref y))))";
    let source = format!("{SECOND}(opaque f (pi x nat (arrow (ref x) nat)) {body})(postulate f nat)");
    for rows in 0..=11 {
        for records in 0..=3 {
            let words = rows * ROW_WORDS + 3;
            let _ = both(source.as_bytes(), [words, 11 * ROW_WORDS, records * RECORD_WORDS, WORK_WORDS]);
            let _ = both(source.as_bytes(), [11 * ROW_WORDS, words, records * RECORD_WORDS + 4, WORK_WORDS]);
        }
    }
    for end in 0..=source.len() {
        let _ = both(&source.as_bytes()[..end], AMPLE);
    }
}

#[test]
fn a_loader_keeps_its_reader() {
    let source = format!("{HEAD}{FORMS}");
    let [mut frames, mut plain] = READERS.map(Loader::with_reader);
    let shown = |loader: &mut Loader| loader.load(source.as_bytes()).map(|loaded| loaded.to_string());
    assert_eq!(shown(&mut frames), shown(&mut plain));
    assert_eq!(frames.list(source.as_bytes()), plain.list(source.as_bytes()));
    // more rows than are likely: the tables grow
    let dense = format!("{HEAD}{}", nested(MOST_FRAMES, "(j nat nat nat nat nat "));
    assert_eq!(plain.load(dense.as_bytes()).map(|loaded| loaded.row_count()), Ok(3_073));
    // questions are answered as by any loader
    assert_eq!(plain.storage(source.as_bytes()), frames.storage(source.as_bytes()));
    assert_eq!(plain.dependents(source.as_bytes(), 0), frames.dependents(source.as_bytes(), 0));
    assert_eq!(plain.print(source.as_bytes()), frames.print(source.as_bytes()));
}

#[test]
fn frames_where_none_is_chosen() {
    assert_eq!(Reader::default(), Reader::Frames);
    let source = format!("{HEAD}{INPUT}");
    let (told, tables, listing, _) = left(source.as_bytes(), AMPLE, Reader::Frames);
    let mut others = rubbish(AMPLE);
    assert_eq!(list(source.as_bytes(), &mut others), listing);
    assert_eq!(load(source.as_bytes(), &mut others).map(|loaded| loaded.row_count()), told.map(|[rows, _]| rows));
    assert_eq!(others, tables);
}
