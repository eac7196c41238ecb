//! Tables that are used again, lent from elsewhere, of any lengths, and as long as every source of a length may need.
use sulyterom::{Class, Comparison, LONGEST_SOURCE, Loader, RECORD_WORDS, ROW_WORDS, Tables, WORK_WORDS, load};

const HEAD: &str = "(surface 0 1)(module m)";
const INPUT: &[u8] = b"(surface 0 1)(module m)(postulate x nat)(postulate y (pi x (ref x) (ref x)))";
const SURFACE: [u32; 32] =
    [19, 0, 0, 0, 0, 0, 0, 36, 24, 64, 1, 0, 0, 0, 0, 59, 24, 72, 1, 0, 0, 0, 0, 67, 4, 57, 1, 1, 2, 0, 0, 53];
const CORE: [u32; 32] =
    [19, 0, 0, 0, 0, 0, 0, 36, 2, 0, 0, 0, 0, 0, 0, 59, 1, 0, 0, 0, 0, 0, 0, 67, 4, 1, 2, 0, 0, 0, 0, 53];
const DECLARATIONS: [u32; 10] = [1, 34, 1, 0, 0, 1, 51, 1, 3, 0];

/// The words, and 0 behind.
fn padded(words: &[u32], length: usize) -> Vec<u32> {
    let mut padded = words.to_vec();
    padded.resize(length, 0);
    padded
}

/// Whether the tables hold what document 01 says of its input.
fn assert_input(tables: &Tables) {
    assert_eq!(tables.surface(), padded(&SURFACE, tables.surface().len()));
    assert_eq!(tables.core(), padded(&CORE, tables.core().len()));
    assert_eq!(tables.declarations(), padded(&DECLARATIONS, tables.declarations().len()));
    assert_eq!(tables.work(), padded(&[], tables.work().len()));
}

#[test]
fn as_long_as_asked() {
    let tables = Tables::with_sizes(4, 2);
    let lengths = tables.into_words().map(|words| words.len());
    assert_eq!(lengths, [4 * ROW_WORDS, 4 * ROW_WORDS, 2 * RECORD_WORDS, WORK_WORDS]);
    assert_eq!(Tables::for_bytes(LONGEST_SOURCE), Tables::with_sizes(21_845, 3_855));
    assert_eq!(Tables::for_bytes(usize::MAX), Tables::for_bytes(LONGEST_SOURCE));
    let lengths = Tables::for_text(LONGEST_SOURCE).into_words().map(|words| words.len());
    assert_eq!(lengths, [0, 21_845 * ROW_WORDS, 3_855 * RECORD_WORDS, WORK_WORDS]);
    // what is refused unread needs nothing
    assert_eq!(Tables::for_text(usize::MAX), Tables::for_text(0));
}

#[test]
fn every_word_of_an_accepted_source() {
    let mut tables = Tables::with_sizes(4, 2);
    load(INPUT, &mut tables).unwrap();
    assert_input(&tables);
    // words over, all of which hold something before
    let mut tables = Tables::from_words(vec![7; 41], vec![7; 35], vec![7; 19], vec![7; 16_390]);
    load(INPUT, &mut tables).unwrap();
    assert_input(&tables);
}

#[test]
fn used_again_after_an_acceptance_and_a_refusal() {
    let mut tables = Tables::with_sizes(10, 4);
    let longer = format!("{HEAD}(opaque a nat (succ (succ (succ zero))))(postulate b unit)(postulate c (ref a))");
    for _ in 0..3 {
        assert_eq!(load(longer.as_bytes(), &mut tables).unwrap().declaration_count(), 3);
        assert_eq!(load(INPUT, &mut tables).unwrap().row_count(), 4);
        assert_input(&tables);
        assert_eq!(load(&INPUT[..67], &mut tables).unwrap_err().offset, Some(67));
        assert_eq!(tables, Tables::with_sizes(10, 4));
    }
}

#[test]
fn lent_from_elsewhere() {
    let mut words = vec![7; 32 + 32 + 10 + WORK_WORDS + 1];
    let (surface, rest) = words.split_at_mut(32);
    let (core, rest) = rest.split_at_mut(32);
    let (declarations, rest) = rest.split_at_mut(10);
    let (work, beyond) = rest.split_at_mut(WORK_WORDS);
    let mut tables = Tables::from_words(surface, core, declarations, work);
    assert_eq!(load(INPUT, &mut tables).unwrap().row_count(), 4);
    assert_eq!((tables.surface(), tables.core()), (&SURFACE[..], &CORE[..]));
    assert_eq!(tables.declarations(), DECLARATIONS);
    assert_eq!(beyond, [7]);

    let boxed = |length: usize| vec![7; length].into_boxed_slice();
    let mut tables = Tables::from_words(boxed(32), boxed(32), boxed(10), boxed(WORK_WORDS));
    assert_eq!(load(INPUT, &mut tables).unwrap().declaration_count(), 2);
    assert_eq!(tables.core(), CORE);
}

#[test]
fn a_source_with_nothing_to_store_needs_no_rows() {
    let mut tables = Tables::with_sizes(0, 0);
    let loaded = load(HEAD.as_bytes(), &mut tables).unwrap();
    assert_eq!((loaded.row_count(), loaded.declaration_count()), (0, 0));
}

#[test]
fn a_loader_grows_and_keeps_its_tables() {
    let mut loader = Loader::new();
    let dense = format!("{HEAD}(postulate a{})", dense(6));
    let short = format!("{HEAD}{}", "(postulate a nat)".repeat(400));
    for _ in 0..3 {
        // sources of few rows, of as many as can be, and of as many declarations as can be
        assert_eq!(loader.load(INPUT).unwrap().row_count(), 4);
        let mut tables = Tables::for_bytes(dense.len());
        let (grown, lent) = (loader.load(dense.as_bytes()).unwrap(), load(dense.as_bytes(), &mut tables).unwrap());
        assert!(grown.row_count() * 5 > dense.len(), "{} rows in {} bytes", grown.row_count(), dense.len());
        assert!(grown.rows().eq(lent.rows()) && grown.surface_rows().eq(lent.surface_rows()));
        assert_eq!(loader.load(short.as_bytes()).unwrap_err().class, Class::DuplicateName);
        assert_eq!(loader.depends(dense.as_bytes(), 0, 0).unwrap().row, None);
        assert_eq!(loader.same(INPUT, dense.as_bytes()), Comparison::Different { declaration: 0 });
        assert_eq!(loader.same(dense.as_bytes(), dense.as_bytes()), Comparison::Same);
    }
}

/// The form with the most rows to the byte: j with forms and leaves in turn, so that hardly a space is needed.
fn dense(depth: usize) -> String {
    match depth {
        0 => "(j nat nat nat nat nat nat)".to_owned(),
        _ => format!("(j{0}nat{0}nat{0}nat)", dense(depth - 1)),
    }
}

#[test]
fn for_bytes_suffices_for_dense_terms() {
    let mut source = HEAD.to_owned();
    let mut place = 0;
    while source.len() + 8_000 < LONGEST_SOURCE {
        source.push_str(&format!("(postulate a{place}{})", dense(5)));
        place += 1;
    }
    let mut tables = Tables::for_bytes(source.len());
    let loaded = load(source.as_bytes(), &mut tables).unwrap();
    assert!(loaded.row_count() * 4 > source.len(), "{} rows in {} bytes", loaded.row_count(), source.len());
}

#[test]
fn for_bytes_suffices_for_the_shortest_declarations() {
    // the names are the same, which is found only after every declaration had a record
    for behind in ["", "(", "(postulate"] {
        let source = format!("{HEAD}{}{behind}", "(postulate a nat)".repeat(3_800));
        let mut tables = Tables::for_bytes(source.len());
        let class = load(source.as_bytes(), &mut tables).unwrap_err().class;
        assert_eq!(class, if behind.is_empty() { Class::DuplicateName } else { Class::Malformed });
    }
}

#[test]
fn threads_load_side_by_side() {
    std::thread::scope(|scope| {
        for _ in 0..4 {
            scope.spawn(|| {
                let mut tables = Tables::with_sizes(10, 4);
                for _ in 0..200 {
                    load(INPUT, &mut tables).unwrap();
                    assert_input(&tables);
                }
            });
        }
    });
}
