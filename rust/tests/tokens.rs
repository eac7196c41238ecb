//! Tokens of a source in their order, from every offset between, and bytes that are none.
use sulyterom::{Class, Refusal, Token, TokenKind, token, tokens};

const SOURCE: &[u8] = b"(ab_-1 ; (comment) \xc3\xa9\r)\n( \t)z;";

#[test]
fn in_their_order() {
    let found: Vec<Token> = tokens(SOURCE).map(Result::unwrap).collect();
    let texts: Vec<&[u8]> = found.iter().map(|token| &SOURCE[token.start..token.end]).collect();
    assert_eq!(texts, [&b"("[..], b"ab_-1", b"(", b")", b"z", b""]);
    assert_eq!(found.last(), Some(&Token { kind: TokenKind::End, start: SOURCE.len(), end: SOURCE.len() }));
}

#[test]
fn from_every_offset() {
    let all: Vec<Token> = tokens(SOURCE).map(Result::unwrap).collect();
    for first in all.windows(2) {
        // between two tokens the next one is found, up to its first byte
        let from = first[0].end;
        assert_eq!(token(SOURCE, from), Ok(first[1]), "from {from}");
        assert_eq!(token(SOURCE, first[1].start), Ok(first[1]));
    }
    for beyond in [SOURCE.len(), SOURCE.len() + 1, usize::MAX] {
        assert_eq!(token(SOURCE, beyond).map(|token| token.kind), Ok(TokenKind::End));
    }
}

#[test]
fn a_byte_that_is_no_part_of_a_token() {
    let refused = |offset| Err(Refusal { class: Class::Malformed, offset: Some(offset) });
    assert_eq!(token(b"  ]", 0), refused(2));
    assert_eq!(token(b"ab\0", 0), refused(2));
    assert_eq!(token(b"\xc3\xa9", 0), refused(0));
    let found: Vec<_> = tokens(b"(a ]b").collect();
    assert_eq!(found.len(), 3);
    assert_eq!(found[2], refused(3));
}
