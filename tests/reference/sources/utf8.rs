//! utf8.txt: byte strings with the length of the longest valid beginning, and whether EF BB BF leads.
use common::lists::Draft;
use common::prng::Prng;
use common::unicode::{BORDERS, CHARACTERS, FAULTS, MARK, encoded, nearly_utf8};

pub fn fill(draft: &mut Draft, prng: &mut Prng) {
    draft.source(b"");
    draft.sources((0..=255).map(|byte: u8| [byte]));
    draft.sources(border_pairs());
    draft.sources(longer(&[0xe0, 0xe1, 0xec, 0xed, 0xee, 0xef], 3, prng, 260));
    draft.sources(longer(&[0xf0, 0xf1, 0xf3, 0xf4, 0xf5], 4, prng, 330));
    draft.sources(characters());
    draft.sources(marks());
    draft.sources((0..150).map(|_| nearly_utf8(prng, 8)).collect::<Vec<_>>());
    draft.sources((0..20).map(|_| nearly_utf8(prng, 60)).collect::<Vec<_>>());
    draft.sources(long());
}

/// First bytes of longer sequences with every border byte behind them.
fn border_pairs() -> Vec<Vec<u8>> {
    let firsts = BORDERS.iter().filter(|first| **first >= 0x80);
    firsts.flat_map(|first| BORDERS.map(|second| vec![*first, second])).collect()
}

/// Sequences of a length; most continue well at first, so that every position meets every border.
fn longer(firsts: &[u8], length: usize, prng: &mut Prng, count: usize) -> Vec<Vec<u8>> {
    let mut sources = Vec::new();
    for _ in 0..count {
        let mut source = vec![*prng.pick(firsts)];
        while source.len() < length {
            let next =
                if prng.chance(60) { *prng.pick(&[0x80, 0x8f, 0x90, 0x9f, 0xa0, 0xbf]) } else { *prng.pick(&BORDERS) };
            source.push(next);
        }
        sources.push(source);
    }
    sources
}

/// Characters and broken sequences, cut short, between others, and twice.
fn characters() -> Vec<Vec<u8>> {
    let good = CHARACTERS.iter().map(|character| encoded(*character));
    let all = good.chain(FAULTS.iter().map(|fault| fault.to_vec()));
    let places = |text: Vec<u8>| {
        let mut sources: Vec<Vec<u8>> = (1..text.len()).map(|end| text[..end].to_vec()).collect();
        sources.push([b"a", &text[..], b"b"].concat());
        sources.push([&encoded('é')[..], &text, &text].concat());
        sources.push([&text[..], b"\xff"].concat());
        sources.push(text);
        sources
    };
    all.flat_map(places).collect()
}

fn marks() -> Vec<Vec<u8>> {
    let twice = MARK.repeat(2);
    let others: [&[u8]; 13] = [
        MARK,
        &twice,
        b"\xef",
        b"\xef\xbb",
        b"\xef\xbb\xbe",
        b"\xef\xbb\xc0",
        b"\xef\xba\xbf",
        b"\xee\xbb\xbf",
        b"\xef\xbb\xbf(",
        b"\xef\xbb\xbf\xff",
        b"(\xef\xbb\xbf",
        b"\xef\xbb\x3f",
        b"\xfe\xff",
    ];
    others.map(<[u8]>::to_vec).into()
}

fn long() -> Vec<Vec<u8>> {
    let text = "é😀a\u{800}".repeat(6500).into_bytes();
    let mut broken = text.clone();
    broken[60000] = 0xff;
    let cut = text[..text.len() - 1].to_vec();
    vec![text, broken, cut, vec![b'a'; 65535], vec![0x80; 65535], [vec![b' '; 65534], vec![0xc3]].concat()]
}
