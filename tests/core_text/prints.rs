//! What is printed, written out. Sources and texts are escaped, with the source's head as `{H}`, that of 0 2 as `{2}`, and the
//! text's as `{T}`.
use super::check::{Source, printed, read_out};
use super::expected::Reference;
use super::lines::lines;
use super::station::{Printed, Reader};
use super::texts::HEAD;
use crate::loading::tables::{LISTING, RECORD, ROW, Rubbish, Sizes, Tables, WORK};
use common::escape::{escape, unescape};
use common::tally::{Mismatch, Tally, differ};
use common::vocabulary;

/// The tables, the bytes of the buffer, the source, and the text or the refusal.
type Printing = (Sizes, usize, &'static str, &'static str);

const FORMS: &str = concat!(
    r"{H} ; all forms\n(opaque a (j empty (sigma x unit (ref x)) (lam _ (lam y (ref _))) (app star nat) ",
    "(pair zero nat) (fst (snd (refl (succ (ann zero nat)))))) star) (transparent b (id (ref a) (universe 0) (universe 120)) ",
    "(empty-elim (unit-elim nat star zero) (nat-elim nat zero star unit)))",
);
const FORMS_TEXT: &str = concat!(
    r#"{T} (opaque "a" (j empty (sigma unit (var 0)) (lam (lam (var 1))) (app star nat) (pair zero nat) "#,
    r#"(fst (snd (refl (succ (ann zero nat)))))) star) (transparent "b" (id (global 0) (universe 0) (universe 120)) "#,
    r#"(empty-elim (unit-elim nat star zero) (nat-elim nat zero star unit)))))\n"#,
);

const PRINTS: [Printing; 19] = [
    (LISTING, 1_000, "{H}", r"{T}))\n"),
    (LISTING, 65, "{H}", r"{T}))\n"),
    (LISTING, 64, "{H}", "refused 14"),
    (LISTING, 0, "{H}", "refused 14"),
    (LISTING, 84, "{H}(postulate x nat)", "refused 14"),
    (LISTING, 85, "{H}(postulate x nat)", r#"{T} (postulate "x" nat)))\n"#),
    (
        LISTING,
        1_000,
        "{H}(postulate x nat)(postulate y (pi x (ref x) (ref x)))",
        r#"{T} (postulate "x" nat) (postulate "y" (pi (global 0) (var 0)))))\n"#,
    ),
    (LISTING, 1_000, FORMS, FORMS_TEXT),
    (
        LISTING,
        1_000,
        r"{H}(postulate a (lam x \{11:(lam y }(ref x)\{12:)})",
        r#"{T} (postulate "a" \{12:(lam }(var 11)\{12:)})))\n"#,
    ),
    // an arrow is printed as a pi
    (
        LISTING,
        1_000,
        "{2}(postulate f (pi x nat (arrow (ref x) (ref x))))",
        r#"{T} (postulate "f" (pi nat (pi (var 0) (var 1))))))\n"#,
    ),
    (LISTING, 0, "{2}(postulate f (arrow nat (ref arrow)))", "refused 3 at 52"),
    (LISTING, 64, "{2}", "refused 14"),
    (LISTING, 1_000, "", "refused 1 at 0"),
    (LISTING, 0, "{H}(postulate nat nat)", "refused 3 at 34"),
    (LISTING, 0, "{H}(postulate a (ref q))", "refused 5"),
    (LISTING, 0, "{H}(postulate a nat)(postulate a nat)", "refused 4"),
    (Tables { core: 7, ..LISTING }, 0, "{H}(postulate a nat)", "refused 10"),
    (Tables { work: WORK - 1, ..LISTING }, 0, "{H}", "refused 11"),
    (LISTING, 1_000, r"{H}\{65513: }", "refused 6"),
];

/// Prints each of the above.
pub fn count(tally: &mut Tally) {
    for (sizes, length, escaped, answer) in PRINTS {
        let escaped = escaped.replace("{H}", vocabulary::HEAD).replace("{2}", vocabulary::HEAD_0_2);
        let source = unescape(&escaped).expect("an escaped source");
        let answer = unescape(&answer.replace("{T}", HEAD)).expect("an escaped text");
        tally.count(&source, prints(&source, sizes, length, &answer));
    }
    tally.count(b"a text longer than its source", long_text());
}

/// Prints, compares every word and byte with what is expected, and the text with what is written above.
fn prints(source: &[u8], sizes: Sizes, length: usize, answer: &[u8]) -> Option<Mismatch> {
    match printed(&Source::new(source), sizes, length, Rubbish::Mixed) {
        Ok(Printed { loaded, text, .. }) => {
            let found = match loaded.class {
                0 => text[..loaded.answer[1] as usize].to_vec(),
                _ => lines(source, &loaded).join("|").into_bytes(),
            };
            differ(&format!("printing with {sizes:?} into {length} bytes"), escape(answer), escape(&found))
        }
        Err(mismatch) => Some(mismatch),
    }
}

/// A source of nearly 65,500 bytes; its text is nearly twice as long, and is read again.
fn long_text() -> Option<Mismatch> {
    let mut source = vocabulary::HEAD.to_string();
    (0..100).for_each(|at| source.push_str(&format!("(postulate a{at} nat)")));
    source.push_str("(postulate x nat)");
    for at in 0..1_040 {
        source.push_str(&format!("(postulate b{at}(j{}))", "(ref x)".repeat(6)));
    }
    source.push_str("(postulate z(pair(ref b898)(ref b899)))");
    let source = Source::new(source.as_bytes());
    let (rows, records) = (8_000 * ROW, 1_200 * RECORD);
    let sizes = Tables { surface: rows, core: rows, declarations: records, work: WORK };
    match printed(&source, sizes, 120_000, Rubbish::Ones) {
        Ok(Printed { loaded, text, .. }) => {
            let text = &text[..loaded.answer[1] as usize];
            let reference = Reference::new(text);
            let read = |reader| read_out(&reference, reader, Tables { surface: 0, ..sizes }, Rubbish::Ones).err();
            let lengths = format!("{} from {}", text.len(), source.loading.source.len());
            differ("lengths", String::from("107295 from 65339"), lengths)
                .or_else(|| Reader::BOTH.into_iter().find_map(read))
        }
        Err(mismatch) => Some(mismatch),
    }
}
