//! Document 02's readings of core text written out: which texts are taken, what is read, and where each is refused.
//! Texts and answers are escaped, and `{H}` is the head. Lines are joined by `|`, and where only the first is written
//! it ends in `|..`.
use super::check::read_out;
use super::expected::Reference;
use super::lines::lines;
use super::prints;
use super::station::Reader::{self, Any, Canonical};
use super::texts::HEAD;
use crate::loading::tables::{LISTING, RECORD, ROW, Rubbish, Sizes, Tables, WORK};
use common::escape::{escape, unescape};
use common::tally::{Mismatch, Tally, differ};
use std::process::ExitCode;

type Reading = (Reader, Sizes, &'static str, &'static str);

const EMPTY: &str = "rows 0 declarations 0";
const INPUT: &str = r#"{H} (postulate "x" nat) (postulate "y" (pi (global 0) (var 0)))))\n"#;
const OUTPUT: &str =
    "rows 4 declarations 2|0 nat @78|1 global 0 @102|2 var 0 @113|3 pi 1 2 @98|0 postulate x 0|1 postulate y 3";

/// Layout: any of bytes 9, 10, 13 and 32, and none where none is needed; the canonical reader takes the print alone.
const LAYOUT: [Reading; 20] = [
    (Any, LISTING, r"{H}))\n", EMPTY),
    (Canonical, LISTING, r"{H}))\n", EMPTY),
    (Any, LISTING, r#"(hott-core(format 0 1)(theory"mltt-core"0 1)(declarations))"#, EMPTY),
    (Canonical, LISTING, r#"(hott-core(format 0 1)(theory"mltt-core"0 1)(declarations))"#, "refused 13"),
    (Canonical, LISTING, "{H}))", "refused 13"),
    (Canonical, LISTING, r"{H}))\n\n", "refused 13"),
    (Canonical, LISTING, r"{H} ))\n", "refused 13"),
    (Canonical, LISTING, r" {H}))\n", "refused 13"),
    (Canonical, LISTING, r"{H}))\r\n", "refused 13"),
    (Any, LISTING, r"\t\n\r {H}\t)\r)\n\n", EMPTY),
    (Any, LISTING, r"\x0b{H}))\n", "refused 13 at 0"),
    (Any, LISTING, r"{H})) \x0c", "refused 13 at 65"),
    (Any, LISTING, INPUT, OUTPUT),
    (Canonical, LISTING, INPUT, OUTPUT),
    (Any, LISTING, r#"{H}(postulate"x"nat)))"#, "rows 1 declarations 1|0 nat @75|0 postulate x 0"),
    (
        Any,
        LISTING,
        r#"{H}(opaque"x"(fst(universe 7))star)))"#,
        "rows 3 declarations 1|0 universe 7 @76|1 fst 0 @72|2 star @89|0 opaque x 1 2",
    ),
    (Any, LISTING, "", "refused 13 at 0"),
    (Any, LISTING, "{H})", "refused 13 at 63"),
    (Any, LISTING, "{H})) nat", "refused 13 at 65"),
    (Any, LISTING, "{H})))", "refused 13 at 64"),
];

/// There are no comments: `;` is a byte of an atom.
const COMMENTS: [Reading; 6] = [
    (Any, LISTING, r"{H}));\n", "refused 13 at 64"),
    (Any, LISTING, r";x\n{H}))\n", "refused 13 at 0"),
    (Any, LISTING, r#"{H} (postulate "a" nat;x)))"#, "refused 13 at 78"),
    (Any, LISTING, r#"{H} (postulate "a" nat ;x\n)))"#, "refused 13 at 82"),
    (Any, LISTING, r#"{H} (postulate "a" (universe 0;)))"#, "refused 13 at 88"),
    (Any, LISTING, r#"{H} (postulate ";" nat)))"#, "rows 1 declarations 1|0 nat @78|0 postulate ; 0"),
];

/// Names are strings of any scalars but 00 to 1F, 7F and U+0080 to U+009F; a backslash stands before a quote or
/// backslash.
const STRINGS: [Reading; 30] = [
    (Any, LISTING, r#"{H} (postulate "nat-elim" nat)))"#, "rows 1 declarations 1|0 nat @85|0 postulate nat-elim 0"),
    (Any, LISTING, r#"{H} (postulate " ( ) ; " nat)))"#, "rows 1 declarations 1|0 nat @84|0 postulate  ( ) ;  0"),
    (Any, LISTING, r#"{H} (postulate "\\"\\\\" nat)))"#, r#"rows 1 declarations 1|0 nat @81|0 postulate \\"\\\\ 0"#),
    (
        Canonical,
        LISTING,
        r#"{H} (postulate "\\"\\\\" nat)))\n"#,
        r#"rows 1 declarations 1|0 nat @81|0 postulate \\"\\\\ 0"#,
    ),
    (Any, LISTING, r#"{H} (postulate "\xc2\xa0" nat)))"#, r"rows 1 declarations 1|0 nat @79|0 postulate \xc2\xa0 0"),
    (
        Any,
        LISTING,
        r#"{H} (postulate "a\xef\xbf\xbd" nat)))"#,
        r"rows 1 declarations 1|0 nat @81|0 postulate a\xef\xbf\xbd 0",
    ),
    (
        Any,
        LISTING,
        r#"{H} (postulate "\xf0\x9f\x98\x80" nat)))"#,
        r"rows 1 declarations 1|0 nat @81|0 postulate \xf0\x9f\x98\x80 0",
    ),
    (Any, LISTING, r#"{H} (postulate "" nat)))"#, "refused 13 at 74"),
    (Any, LISTING, r#"{H} (postulate "a\x00" nat)))"#, "refused 13 at 76"),
    (Any, LISTING, r#"{H} (postulate "a\t" nat)))"#, "refused 13 at 76"),
    (Any, LISTING, r#"{H} (postulate "a\n" nat)))"#, "refused 13 at 76"),
    (Any, LISTING, r#"{H} (postulate "a\x1f" nat)))"#, "refused 13 at 76"),
    (Any, LISTING, r#"{H} (postulate "a\x7f" nat)))"#, "refused 13 at 76"),
    (Any, LISTING, r#"{H} (postulate "ab\xc2\x80" nat)))"#, "refused 13 at 77"),
    (Any, LISTING, r#"{H} (postulate "ab\xc2\x9f" nat)))"#, "refused 13 at 77"),
    (Any, LISTING, r#"{H} (postulate "a\\n" nat)))"#, "refused 13 at 76"),
    (Any, LISTING, r#"{H} (postulate "a\\"#, "refused 13 at 76"),
    (Any, LISTING, r#"{H} (postulate "a\\\x00""#, "refused 13 at 76"),
    (Any, LISTING, r#"{H} (postulate "a\\""#, "refused 13 at 74"),
    (Any, LISTING, r#"{H} (postulate "a nat)))"#, "refused 13 at 74"),
    (Any, LISTING, r#"{H} (postulate ""#, "refused 13 at 74"),
    (Any, LISTING, r#"{H} "a" "#, "refused 13 at 63"),
    (Any, LISTING, r#"{H} "a\x01" "#, "refused 13 at 65"),
    (Any, LISTING, r#"{H} ("a\\b""#, "refused 13 at 66"),
    (Any, LISTING, r#"{H} (postulate a nat)))"#, "refused 13 at 74"),
    (Any, LISTING, r#"{H} (postulate "a" "nat")))"#, "refused 13 at 78"),
    (Any, LISTING, r#"{H} (postulate "a" nat"#, "refused 13 at 81"),
    (Any, LISTING, r#"{H} (postulate "a" nat\x7f"#, "refused 13 at 81"),
    (Any, LISTING, r#"{H} (postulate "a" \x7f"#, "refused 13 at 78"),
    (Any, LISTING, r#"{H} (postulate "a" nat\xc3\xa9"#, "refused 13 at 81"),
];

/// 2 covers five words, and is given behind the theory's parenthesis.
const VERSIONS: [Reading; 15] = [
    (Any, LISTING, r#"(hott-core (format 1 1) (theory "mltt-core" 0 1)"#, "refused 2"),
    (Any, LISTING, r#"(hott-core (format 0 2) (theory "mltt-core" 0 1)"#, "refused 2"),
    (Any, LISTING, r#"(hott-core (format 0 1) (theory "mltt-core" 0 2)"#, "refused 2"),
    (Any, LISTING, r#"(hott-core (format 0 1) (theory "mltt-cor" 0 1)"#, "refused 2"),
    (Any, LISTING, r#"(hott-core (format 0 1) (theory "mltt-core" 1 1)"#, "refused 2"),
    (Any, LISTING, r#"(hott-core (format 0 1) (theory "mltt-core" 0 0)"#, "refused 2"),
    (Any, LISTING, r#"(hott-core (format 0 1) (theory "mltt-core" 0 99999999999999999999)]"#, "refused 2"),
    (Any, LISTING, r#"(hott-core (format 9 9) (theory "x" 0 1"#, "refused 13 at 39"),
    (Any, LISTING, r#"(hott-core (format 9 9) (theory "x" 0 1]"#, "refused 13 at 38"),
    (Any, LISTING, r#"(hott-core (format 9 9) (theory "x" 0 01)"#, "refused 13 at 38"),
    (Any, LISTING, r#"(hott-core (format 9 9) (theory "" 0 1)"#, "refused 13 at 32"),
    (Any, LISTING, r#"(hott-core (format 9 9) (theory x 0 1)"#, "refused 13 at 32"),
    (Any, LISTING, r#"(hott-core (format 00 1)"#, "refused 13 at 19"),
    (Any, LISTING, r#"(hott-semantic (projection 0 1)"#, "refused 13 at 1"),
    (Canonical, LISTING, r#"(hott-core(format 9 9)(theory "x" 0 1))"#, "refused 2"),
];

/// Numerals have no leading zero and no greatest value; what var and global name is not looked at.
const NUMERALS: [Reading; 8] = [
    (
        Any,
        LISTING,
        r#"{H} (postulate "a" (var 99999999999999999999999))))"#,
        "rows 1 declarations 1|0 var 99999999999999999999999 @78|0 postulate a 0",
    ),
    (Any, LISTING, r#"{H} (postulate "a" (global 7))))"#, "rows 1 declarations 1|0 global 7 @78|0 postulate a 0"),
    (
        Any,
        LISTING,
        r#"{H} (postulate "a" (global 4294967296))))"#,
        "rows 1 declarations 1|0 global 4294967296 @78|0 postulate a 0",
    ),
    (Any, LISTING, r#"{H} (postulate "a" (var 00))))"#, "refused 13 at 83"),
    (Any, LISTING, r#"{H} (postulate "a" (universe 07))))"#, "refused 13 at 88"),
    (Any, LISTING, r#"{H} (postulate "a" (universe -1))))"#, "refused 13 at 88"),
    (Any, LISTING, r#"{H} (postulate "a" (ref x))))"#, "refused 13 at 79"),
    (Any, LISTING, r#"{H} (postulate "a" (arrow nat nat))))"#, "refused 13 at 79"),
];

/// A name used twice is 13 at 0, behind everything but the canonical reader's own test.
const TWICE: [Reading; 10] = [
    (Any, LISTING, r#"{H} (postulate "a" nat) (postulate "a" nat)))\n"#, "refused 13 at 0"),
    (Canonical, LISTING, r#"{H} (postulate "a" nat) (postulate "a" nat)))\n"#, "refused 13 at 0"),
    (Canonical, LISTING, r#"{H} (postulate "a" nat) (postulate "a" nat)))"#, "refused 13 at 0"),
    (Any, LISTING, r#"{H} (postulate "\\"" nat) (postulate "\\"" nat)))\n"#, "refused 13 at 0"),
    (
        Any,
        LISTING,
        r#"{H} (postulate "\\"" nat) (postulate "\\\\" nat)))\n"#,
        r#"rows 2 declarations 2|0 nat @79|1 nat @100|0 postulate \\" 0|1 postulate \\\\ 1"#,
    ),
    (
        Any,
        LISTING,
        r#"{H} (postulate "a" nat) (postulate "b" nat)))\n"#,
        "rows 2 declarations 2|0 nat @78|1 nat @98|0 postulate a 0|1 postulate b 1",
    ),
    (Any, LISTING, r#"{H} (postulate "aaaaaaaab" nat) (opaque "aaaaaaaac" nat nat)))\n"#, "rows 3 declarations 2|.."),
    (Any, LISTING, r#"{H} (postulate "a" nat) (postulate "a" nat)"#, "refused 13 at 102"),
    (Any, LISTING, r#"{H} (postulate "a" nat) (postulate "a" nat))) x"#, "refused 13 at 105"),
    (Any, with_core(8), r#"{H} (postulate "a" nat) (postulate "a" nat)))"#, "refused 10"),
];

/// 7 behind the tag, with no binder to wait for; var, global and universe are no frames.
const FRAMES: [Reading; 14] = [
    (Any, LISTING, r#"{H} (postulate "a" \{512:(fst }star\{512:)})))"#, "rows 513 declarations 1|.."),
    (Any, LISTING, r#"{H} (postulate "a" \{513:(fst }star\{513:)})))"#, "refused 7"),
    (Any, LISTING, r#"{H} (postulate "a" \{512:(lam }(var 0)\{512:)})))"#, "rows 513 declarations 1|.."),
    (Any, LISTING, r#"{H} (postulate "a" \{512:(fst }(universe 3)\{512:)})))"#, "rows 513 declarations 1|.."),
    (
        Any,
        LISTING,
        r#"{H} (opaque "a" \{512:(fst }star\{512:)} \{500:(fst }star\{500:)})))"#,
        "rows 1014 declarations 1|..",
    ),
    (Any, LISTING, r#"{H} (postulate "a" \{512:(fst }(fst"#, "refused 7"),
    (Any, LISTING, r#"{H} (postulate "a" \{512:(fst }(pi"#, "refused 7"),
    (Any, LISTING, r#"{H} (postulate "a" \{512:(fst }(fst \x00"#, "refused 7"),
    (Any, LISTING, r#"{H} (postulate "a" \{512:(fst }(fst\x00"#, "refused 13 at 2642"),
    (Any, LISTING, r#"{H} (postulate "a" \{512:(fst }("#, "refused 13 at 2639"),
    (Any, LISTING, r#"{H} (postulate "a" \{512:(fst }(bogus"#, "refused 13 at 2639"),
    (Any, LISTING, r#"{H} (postulate "a" \{512:(fst }(ref"#, "refused 13 at 2639"),
    (Any, LISTING, r#"{H} (postulate "a" \{512:(fst }(var x"#, "refused 13 at 2643"),
    (Canonical, LISTING, r#" {H} (postulate "a" \{513:(fst }star\{513:)})))"#, "refused 7"),
];

/// 9 at the parenthesis; 10 where a completed term finds no row. The list has one record, the table one row.
const FULL: [Reading; 22] = [
    (Any, ONE, r#"{H} (postulate "a" nat)))"#, "rows 1 declarations 1|0 nat @78|0 postulate a 0"),
    (Any, ONE, r#"{H} (postulate "a" nat) ("#, "refused 9"),
    (Any, ONE, r#"{H} (postulate "a" nat) (\x00"#, "refused 9"),
    (Any, ONE, r#"{H} (postulate "a" nat) (bogus"#, "refused 9"),
    (Any, ONE, r#"{H} (postulate "a" nat) nat"#, "refused 13 at 83"),
    (Any, with_declarations(4), r#"{H} (postulate "a" nat)))"#, "refused 9"),
    (Any, with_declarations(0), "{H}))", EMPTY),
    (Any, with_core(0), "{H}))", EMPTY),
    (Any, with_core(7), r#"{H} (postulate "a" nat"#, "refused 10"),
    (Any, ONE, r#"{H} (opaque "a" nat nat"#, "refused 10"),
    (Any, ONE, r#"{H} (opaque "a" nat nat\x00"#, "refused 13 at 82"),
    (Any, ONE, r#"{H} (opaque "a" nat bogus"#, "refused 13 at 79"),
    (Any, ONE, r#"{H} (opaque "a" nat (var 0"#, "refused 13 at 85"),
    (Any, ONE, r#"{H} (opaque "a" nat (var 0 0"#, "refused 13 at 86"),
    (Any, ONE, r#"{H} (opaque "a" nat (var 00)"#, "refused 13 at 84"),
    (Any, ONE, r#"{H} (opaque "a" nat (var 0)"#, "refused 10"),
    (Any, ONE, r#"{H} (postulate "a" (fst nat"#, "refused 13 at 86"),
    (Any, ONE, r#"{H} (postulate "a" (fst nat nat"#, "refused 13 at 87"),
    (Any, ONE, r#"{H} (postulate "a" (fst nat)"#, "refused 10"),
    (Any, ONE, r#"{H} (postulate "a" (fst (fst (fst"#, "refused 13 at 92"),
    (Any, with_core(31), INPUT, "refused 10"),
    (Canonical, with_core(32), INPUT, OUTPUT),
];

/// 11 before everything, then UTF-8, then the mark. A text may be longer than any source.
const ORDER: [Reading; 12] = [
    (Any, with_work(WORK - 1), "", "refused 11"),
    (Any, with_work(WORK - 1), INPUT, "refused 11"),
    (Canonical, with_work(0), r"\xff", "refused 11"),
    (Canonical, with_work(WORK + 1), INPUT, OUTPUT),
    (Any, LISTING, r"(\xc3(", "refused 13 at 1"),
    (Any, LISTING, r"\x00{H}\xed\xa0\x80", "refused 13 at 63"),
    (Any, LISTING, r"\xef\xbb\xbf{H}))\n", "refused 13 at 0"),
    (Any, LISTING, r"\xef\xbb\xbf{H})) \xff", "refused 13 at 68"),
    (Any, LISTING, r"\xef\xbb", "refused 13 at 0"),
    (Any, LISTING, r"{H}\{70000: }))", EMPTY),
    (Any, LISTING, r#"{H}\{70000: }(postulate "a" nat)))"#, "rows 1 declarations 1|0 nat @70077|0 postulate a 0"),
    (Any, LISTING, r#"{H} (postulate "\{70000:a}" nat))"#, "refused 13 at 70082"),
];

const ONE: Sizes = Tables { core: ROW + 7, declarations: RECORD + 4, ..LISTING };

const fn with_core(core: usize) -> Sizes {
    Tables { core, ..LISTING }
}

const fn with_declarations(declarations: usize) -> Sizes {
    Tables { declarations, ..LISTING }
}

const fn with_work(work: usize) -> Sizes {
    Tables { work, ..LISTING }
}

pub fn run() -> ExitCode {
    let mut tally = Tally::default();
    let readings = [&LAYOUT[..], &COMMENTS, &STRINGS, &VERSIONS, &NUMERALS, &TWICE, &FRAMES, &FULL, &ORDER].concat();
    for (reader, sizes, escaped, answer) in readings {
        let text = unescape(&escaped.replace("{H}", HEAD)).expect("an escaped text");
        tally.count(&text, reads(&Reference::new(&text), reader, sizes, answer));
    }
    tally.count(b"a text of over 65,536 rows", wide_text());
    prints::count(&mut tally);
    tally.finish()
}

/// Reads, compares every word with what is expected, and the lines with what is written above.
fn reads(reference: &Reference, reader: Reader, sizes: Sizes, answer: &str) -> Option<Mismatch> {
    match read_out(reference, reader, Tables { surface: 0, ..sizes }, Rubbish::Mixed) {
        Ok(read) => {
            let mut lines = lines(reference.text, &read);
            if answer.ends_with("|..") {
                lines.splice(1.., [String::from("..")]);
            }
            differ(&format!("{reader:?} with {sizes:?}"), answer.to_string(), escape(lines.join("|").as_bytes()))
        }
        Err(mismatch) => Some(mismatch),
    }
}

/// A text of 65,538 rows, in which a child's number has 17 bits: 55,987 of a tree, 9,331 of a smaller one, and 220 more.
/// It is read into a table that has one row less, and into one that has as many.
fn wide_text() -> Option<Mismatch> {
    let tree =
        |height: usize| (0..height).fold(String::from("nat"), |tree, _| format!("(j{})", format!(" {tree}").repeat(6)));
    let rest = format!("{}{}{}", "(fst ".repeat(220), tree(5), ")".repeat(220));
    let text = format!("{HEAD} (opaque \"a\" {} {rest})))\n", tree(6));
    let reference = Reference::new(text.as_bytes());
    let read = |count: usize, answer| reads(&reference, Canonical, with_core(count * ROW), answer);
    read(65_537, "refused 10").or_else(|| read(65_538, "rows 65538 declarations 1|.."))
}
