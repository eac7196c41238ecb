//! The module's name from the head of a source.
use sulyterom::{Class, HEAD_BYTES, LONGEST_SOURCE, Loader, Refusal, head};

const HEAD: &[u8] = b"(surface 0 1)(module m)";

fn with(rest: &[u8]) -> Vec<u8> {
    [HEAD, rest].concat()
}

fn refused(source: &[u8]) -> (Class, Option<usize>) {
    let Refusal { class, offset } = head(source).unwrap_err();
    (class, offset)
}

#[test]
fn whatever_follows() {
    let tails =
        [&b""[..], b"(postulate x nat)", b"]", b"\xff", b"(postulate m (ref q))", &[b' '; 70_000], &[0xff; 70_000]];
    for tail in tails {
        let source = with(tail);
        let name = head(&source).unwrap();
        assert_eq!((name.start, name.bytes), (21, &b"m"[..]));
    }
}

#[test]
fn of_a_source_that_loads_too() {
    let source = b"; a shelf\n(surface 0 1)\n(module lists_of_nat)\n(postulate x nat)";
    assert_eq!(Loader::new().load(source).unwrap().declaration_count(), 1);
    assert_eq!(head(source).unwrap().as_str(), "lists_of_nat");
}

#[test]
fn without_a_good_head_the_whole_source_is_refused() {
    assert_eq!(refused(b""), (Class::Malformed, Some(0)));
    assert_eq!(refused(b"(surface 1 0) ]"), (Class::Version, None));
    assert_eq!(refused(b"(surface 1 0) \xff"), (Class::Malformed, Some(14)));
    assert_eq!(refused(b"(surface 0 1)(module nat)"), (Class::ReservedName, Some(21)));
    assert_eq!(refused(b"(surface 0 1)(module m;\xff\n)"), (Class::Malformed, Some(23)));
    assert_eq!(refused(&[b"\xef\xbb\xbf", HEAD].concat()), (Class::Malformed, Some(0)));
    assert_eq!(refused(&[b']'; LONGEST_SOURCE]), (Class::Malformed, Some(0)));
    assert_eq!(refused(&[b']'; LONGEST_SOURCE + 1]), (Class::LongSource, None));
}

#[test]
fn a_head_ends_with_the_longest_source_at_the_latest() {
    let ending = |end: usize| [b"(surface 0 1)".to_vec(), vec![b' '; end - 23], b"(module m)".to_vec()].concat();
    assert_eq!(head(&ending(LONGEST_SOURCE)).unwrap().start, LONGEST_SOURCE - 2);
    assert_eq!(refused(&ending(LONGEST_SOURCE + 1)), (Class::LongSource, None));
    let longer = [ending(LONGEST_SOURCE), vec![b')'; 9]].concat();
    assert_eq!(head(&longer).unwrap().start, LONGEST_SOURCE - 2);
    // the first bytes answer for all of it
    assert_eq!(head(&longer[..HEAD_BYTES]), head(&longer));
    let other = [ending(LONGEST_SOURCE + 1), vec![b')'; 9]].concat();
    assert_eq!(head(&other[..HEAD_BYTES]), head(&other));
}
