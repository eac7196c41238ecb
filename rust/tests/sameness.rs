//! Whether two sources leave the same core, where they part, and what the question leaves.
use sulyterom::{Class, Comparison, Refusal, Tables, load, same};

const SOURCE: &[u8] = b"\
(surface 0 1)(module m)
(postulate a (universe 10))
(postulate b (pi x (ref a) (pi y (ref a) (id (ref a) (ref x) (ref y)))))
(transparent c (ref b) (lam a (ref a)))
";

/// The source with one part replaced by another.
fn changed(part: &str, by: &str) -> Vec<u8> {
    let source = std::str::from_utf8(SOURCE).unwrap();
    assert!(source.contains(part), "{part}");
    source.replace(part, by).into_bytes()
}

fn asked(second: &[u8]) -> Comparison {
    let mut tables = Tables::for_bytes(SOURCE.len());
    let mut others = Tables::for_bytes(second.len());
    same(SOURCE, second, &mut tables, &mut others)
}

#[test]
fn binders_layout_and_the_module_name_play_no_part() {
    assert_eq!(asked(SOURCE), Comparison::Same);
    assert_eq!(asked(&changed("(lam a (ref a))", "(lam\n z(ref z)) ; a comment\n")), Comparison::Same);
    assert_eq!(asked(&changed("(module m)", "(module other)")), Comparison::Same);
}

#[test]
fn where_the_two_part() {
    let parts = [
        ("universe 10", "universe 11", 0),
        ("postulate a (universe", "postulate z nat)(postulate a (universe", 0),
        ("(ref x) (ref y)", "(ref y) (ref y)", 1),
        ("transparent c", "opaque c", 2),
        ("transparent c", "transparent d", 2),
        ("(lam a (ref a))", "(lam z (ref a))", 2),
        ("(transparent c (ref b) (lam a (ref a)))", "", 2),
        ("(lam a (ref a)))", "(lam a (ref a)))(postulate d nat)", 3),
    ];
    for (part, by, declaration) in parts {
        assert_eq!(asked(&changed(part, by)), Comparison::Different { declaration }, "{part} as {by}");
    }
}

#[test]
fn a_yes_and_a_no_leave_what_loading_leaves() {
    for second in [SOURCE.to_vec(), changed("universe 10", "universe 9")] {
        let rubbish = || Tables::from_words(vec![7; 300], vec![7; 301], vec![7; 44], vec![7; 16_384]);
        let (mut tables, mut others) = (rubbish(), rubbish());
        let answer = same(SOURCE, &second, &mut tables, &mut others);
        assert_eq!(answer == Comparison::Same, second == SOURCE);
        let (mut first_alone, mut second_alone) = (rubbish(), rubbish());
        load(SOURCE, &mut first_alone).unwrap();
        load(&second, &mut second_alone).unwrap();
        assert_eq!(tables, first_alone);
        let [surface, core, declarations, _] = second_alone.into_words();
        assert_eq!(others, Tables::from_words(surface, core, declarations, vec![7; 16_384]));
    }
}

#[test]
fn the_first_refusal_comes_first() {
    let unknown = changed("(lam a (ref a))", "(lam a (ref q))");
    let refused = |class, offset| Refusal { class, offset };
    let mut tables = Tables::from_words(vec![7; 300], vec![7; 300], vec![7; 44], vec![7; 16_384]);
    let mut others = tables.clone();
    let answer = same(SOURCE, &unknown, &mut tables, &mut others);
    assert_eq!(answer, Comparison::SecondRefused(refused(Class::UnknownName, None)));
    let answer = same(b"(", &unknown, &mut tables, &mut others);
    assert_eq!(answer, Comparison::FirstRefused(refused(Class::Malformed, Some(1))));
    let ([surface, core, declarations, work], others) = (tables.into_words(), others.into_words());
    for words in [&surface, &core, &declarations, &work, &others[0], &others[1], &others[2]] {
        assert!(words.iter().all(|word| *word == 0));
    }
}
