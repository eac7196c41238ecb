//! Characters and byte sequences at the borders of the Unicode standard's table 3-7.
use crate::prng::Prng;

/// Characters of two, three and four bytes: the borders of each length, and some that look like layout.
pub const CHARACTERS: [char; 20] = [
    '\u{80}',
    '\u{85}',
    '\u{a0}',
    'é',
    '\u{7ff}',
    '\u{800}',
    '\u{fff}',
    '\u{1000}',
    '\u{2028}',
    '\u{3000}',
    '\u{d7ff}',
    '\u{e000}',
    '\u{feff}',
    '\u{fffd}',
    '\u{ffff}',
    '\u{10000}',
    '😀',
    '\u{3ffff}',
    '\u{40000}',
    '\u{10ffff}',
];

/// Sequences that are not UTF-8: lone and missing continuations, overlong ones, surrogates, above F4 8F.
pub const FAULTS: [&[u8]; 36] = [
    b"\x80",
    b"\x8f",
    b"\x9f",
    b"\xa0",
    b"\xbf",
    b"\xc0",
    b"\xc1",
    b"\xc0\x80",
    b"\xc1\xbf",
    b"\xc2",
    b"\xdf",
    b"\xc3\x28",
    b"\xc2\xc2\x80",
    b"\xe0",
    b"\xe0\xa0",
    b"\xe0\x80\x80",
    b"\xe0\x9f\xbf",
    b"\xe1\x80",
    b"\xe1\x80\x7f",
    b"\xed\xa0\x80",
    b"\xed\xbf\xbf",
    b"\xef\xbb",
    b"\xef\xbf\xc0",
    b"\xf0",
    b"\xf0\x90",
    b"\xf0\x9f\x98",
    b"\xf0\x80\x80\x80",
    b"\xf0\x8f\xbf\xbf",
    b"\xf4\x90\x80\x80",
    b"\xf4\x8f\xbf",
    b"\xf4\x8f\xbf\xc0",
    b"\xf5\x80\x80\x80",
    b"\xf7\xbf\xbf\xbf",
    b"\xf8\x88\x80\x80\x80",
    b"\xfe",
    b"\xff",
];

/// The bytes at which a line of the table starts or ends, in whatever position.
pub const BORDERS: [u8; 26] = [
    0x00, 0x0a, 0x3b, 0x7f, 0x80, 0x8f, 0x90, 0x9f, 0xa0, 0xbf, 0xc0, 0xc1, 0xc2, 0xdf, 0xe0, 0xe1, 0xec, 0xed, 0xee,
    0xef, 0xf0, 0xf1, 0xf3, 0xf4, 0xf5, 0xff,
];

pub const MARK: &[u8] = b"\xef\xbb\xbf";

pub fn encoded(character: char) -> Vec<u8> {
    character.to_string().into_bytes()
}

/// Bytes that are mostly UTF-8: characters, plain text, and now and then a fault or a byte from a border.
pub fn nearly_utf8(prng: &mut Prng, pieces: usize) -> Vec<u8> {
    let mut bytes = Vec::new();
    for _ in 0..pieces {
        match prng.below(10) {
            0..=4 => bytes.extend(encoded(*prng.pick(&CHARACTERS))),
            5..=7 => bytes.push(prng.between(32, 126) as u8),
            8 => bytes.push(*prng.pick(&BORDERS)),
            _ if prng.chance(40) => bytes.extend(*prng.pick(&FAULTS)),
            _ => bytes.push(b'\n'),
        }
    }
    bytes
}
