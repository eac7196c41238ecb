//! Sources written by hand with document 01's answer: its card, and what is easily mistaken.
//! The generator stops where the Rust answers otherwise. Sources are escaped, and `{H}` is the head, `{2}` that of 0 2.
use common::escape::unescape;
use common::vocabulary::{HEAD, HEAD_0_2};

/// The source of an escaped line, with a head in the place of `{H}` and of `{2}`.
pub fn source(escaped: &str) -> Vec<u8> {
    unescape(&escaped.replace("{H}", HEAD).replace("{2}", HEAD_0_2)).expect("an escaped source")
}

const EMPTY: &str = "nodes 0 declarations 0";

/// Document 01, "Readings on the card", but for the lines that the Rust cannot answer.
pub const CARD: &[(&str, &str)] = &[
    ("", "refused 1 at 0"),
    ("(", "refused 1 at 1"),
    ("{H}", EMPTY),
    ("(surface 1 0", "refused 1 at 12"),
    ("(surface 1 0) ]", "refused 2"),
    ("(surface 00 1)", "refused 1 at 9"),
    ("{H}(postulate nat-elim nat)", "refused 3 at 34"),
    ("{H}(postulate a-b nat)", "refused 1 at 34"),
    ("{H}(postulate a nat)(postulate a (ref q))", "refused 4"),
    ("{H}(postulate a (ref q))(postulate a nat)", "refused 5"),
    ("{H}(postulate b (ref q))(", "refused 1 at 45"),
    (
        "{H}(postulate x nat)(postulate y (pi x (ref x) (ref x)))",
        "nodes 4 declarations 2|0 nat|1 global 0|2 var 0|3 pi 1 2|0 postulate x 0|1 postulate y 3",
    ),
    ("{H}(postulate f (pi _ nat (ref _)))", "nodes 3 declarations 1|0 nat|1 var 0|2 pi 0 1|0 postulate f 2"),
    (";\\xc3\\xa9\\n{H}", EMPTY),
    (";\\xc3\\n", "refused 1 at 1"),
    ("{H}\\{65512: }", EMPTY),
];

/// UTF-8 of the whole source comes first, then a leading mark, then the first token.
pub const ENCODING: &[(&str, &str)] = &[
    ("]abc\\xff", "refused 1 at 4"),
    ("\\xff{H}", "refused 1 at 0"),
    ("{H}\\xff", "refused 1 at 23"),
    ("{H};\\xff", "refused 1 at 24"),
    ("(surface 0 3)\\xff", "refused 1 at 13"),
    ("(surface 0 3)\\xc3\\xa9", "refused 2"),
    ("(surface 0 2)\\xff", "refused 1 at 13"),
    ("{H}(postulate a (ref q)) ;\\xf0\\x9f\\x98", "refused 1 at 46"),
    ("{H}(postulate a (ref q)) ;\\xf0\\x9f\\x98\\x80", "refused 5"),
    ("\\xef\\xbb\\xbf{H}", "refused 1 at 0"),
    ("\\xef\\xbb\\xbf", "refused 1 at 0"),
    ("\\xef\\xbb", "refused 1 at 0"),
    ("\\xef\\xbb\\xbf{H};\\xff", "refused 1 at 27"),
    (" \\xef\\xbb\\xbf{H}", "refused 1 at 1"),
    (";\\xef\\xbb\\xbf\\n{H}", EMPTY),
    ("{H}\\xef\\xbb\\xbf", "refused 1 at 23"),
    ("{H};\\xed\\x9f\\xbf", EMPTY),
    ("{H};\\xed\\xa0\\x80", "refused 1 at 24"),
    ("{H};\\xc0\\x80", "refused 1 at 24"),
    ("{H};\\xe0\\x80\\x80", "refused 1 at 24"),
    ("{H};\\xf0\\x80\\x80\\x80", "refused 1 at 24"),
    ("{H};\\xf4\\x8f\\xbf\\xbf", EMPTY),
    ("{H};\\xf4\\x90\\x80\\x80", "refused 1 at 24"),
    ("{H};a\\xc3\\n", "refused 1 at 25"),
    ("{H}(postulate \\xc3\\xa9 nat)", "refused 1 at 34"),
    ("{H}(postulate a\\xc3\\xa9 nat)", "refused 1 at 35"),
];

/// Layout, comments, atoms and refused bytes.
pub const TOKENS: &[(&str, &str)] = &[
    ("( ;x", "refused 1 at 4"),
    ("( ;x\\n ", "refused 1 at 6"),
    (";c\\r{H}", "refused 1 at 26"),
    (";c\\r\\n{H}", EMPTY),
    (";\\x00\\x0b\\x0c\\x7f()]\\n{H};", EMPTY),
    ("\\t\\n\\r {H}\\t\\n\\r ", EMPTY),
    ("\\x0b{H}", "refused 1 at 0"),
    ("{H}\\x0c", "refused 1 at 23"),
    ("{H}\\x00", "refused 1 at 23"),
    ("{H}\\x00(postulate a nat)", "refused 1 at 23"),
    ("(surface;c\\n0;\\n1)(module;\\nm)", EMPTY),
    ("(surface 0;1)\\n1)(module m)", EMPTY),
    ("(surface 0 1)(module m;)", "refused 1 at 24"),
    ("(surface0 1)(module m)", "refused 1 at 1"),
    ("(surface 00]", "refused 1 at 11"),
    ("(surface 0 1]", "refused 1 at 12"),
    ("(surface 0 2]", "refused 1 at 12"),
    ("{H}(postulate nat-elim] ", "refused 1 at 42"),
    ("{H}(postulate a nat]", "refused 1 at 39"),
    ("{H}(postulate a natx]", "refused 1 at 40"),
    ("{H}(postulate a nat;c\\n)", "nodes 1 declarations 1|0 nat|0 postulate a 0"),
    ("{H}(postulate a nat;c", "refused 1 at 41"),
    ("{H};", EMPTY),
    ("{H} x", "refused 1 at 24"),
    ("{H} )", "refused 1 at 24"),
    ("{H}{H}", "refused 1 at 24"),
    ("(surface \"0\" 1)", "refused 1 at 9"),
];

/// The version.
pub const VERSION: &[(&str, &str)] = &[
    ("(surface 0 0)", "refused 2"),
    ("(surface 0 3)", "refused 2"),
    ("(surface 1 1)", "refused 2"),
    ("(surface 1 2)", "refused 2"),
    ("(surface 2 0)", "refused 2"),
    ("(surface 0 10)", "refused 2"),
    ("(surface 0 12)", "refused 2"),
    ("(surface 0 20)", "refused 2"),
    ("(surface 10 1)", "refused 2"),
    ("(surface 0 3)\\x00", "refused 2"),
    ("(surface 0 3)(module nat)", "refused 2"),
    ("(surface 0 3)(module arrow)", "refused 2"),
    ("(surface 0 02)", "refused 1 at 11"),
    ("(surface 0 2 ", "refused 1 at 13"),
    ("(surface 0 2 3)", "refused 1 at 13"),
    ("(surface 0 a)", "refused 1 at 11"),
    ("(surface 0 nat)", "refused 1 at 11"),
    ("(surface 01 1)", "refused 1 at 9"),
    ("(surface 0 01)", "refused 1 at 11"),
    ("(surface 0 1a)", "refused 1 at 11"),
    ("(surface 0 -)", "refused 1 at 11"),
    ("(surface -0 1)", "refused 1 at 9"),
    ("(surface 1_0 1)", "refused 1 at 9"),
    ("(surface 0)", "refused 1 at 10"),
    ("(surface)", "refused 1 at 8"),
    ("(surface (0) 1)", "refused 1 at 9"),
    ("(surface 4294967296 1)", "refused 2"),
    ("(surface 18446744073709551616 18446744073709551617)", "refused 2"),
    ("(surface \\{1000:10} 1)", "refused 2"),
    ("(Surface 0 1)(module m)", "refused 1 at 1"),
    ("(hott-core (format 0 1))", "refused 1 at 1"),
    ("surface 0 1", "refused 1 at 0"),
];

/// Names: the reserved test first, exact bytes, four places.
pub const NAMES: &[(&str, &str)] = &[
    ("(surface 0 1)(module nat)", "refused 3 at 21"),
    ("(surface 0 1)(module nat", "refused 3 at 21"),
    ("(surface 0 1)(module nat]", "refused 1 at 24"),
    ("(surface 0 1)(module module)", "refused 3 at 21"),
    ("(surface 0 1)(module m", "refused 1 at 22"),
    ("(surface 0 1)(module)", "refused 1 at 20"),
    ("(surface 0 1)(module 0)", "refused 1 at 21"),
    ("(surface 0 1)(module _)", EMPTY),
    ("(surface 0 1)(module arrow)", EMPTY),
    ("(surface 0 1)(module m n)", "refused 1 at 23"),
    ("{H}(postulate nat", "refused 3 at 34"),
    ("{H}(postulate nat-eli nat)", "refused 1 at 34"),
    ("{H}(postulate unit-elim nat)", "refused 3 at 34"),
    ("{H}(postulate Nat nat)", "nodes 1 declarations 1|0 nat|0 postulate Nat 0"),
    ("{H}(postulate var nat)", "nodes 1 declarations 1|0 nat|0 postulate var 0"),
    ("{H}(postulate a (pi nat nat nat))", "refused 3 at 40"),
    ("{H}(postulate a (pi a-b nat nat))", "refused 1 at 40"),
    ("{H}(postulate a (pi nat-elim] nat nat))", "refused 1 at 48"),
    ("{H}(postulate a (lam nat nat))", "refused 3 at 41"),
    ("{H}(postulate a (lam a-b nat))", "refused 1 at 41"),
    ("{H}(postulate a (sigma nat nat nat))", "refused 3 at 43"),
    ("{H}(postulate a (sigma 0 nat nat))", "refused 1 at 43"),
    ("{H}(postulate a (ref nat))", "refused 3 at 41"),
    ("{H}(postulate a (ref 0))", "refused 1 at 41"),
    ("{H}(postulate a (ref nat", "refused 3 at 41"),
    ("{H}(postulate a (ref q", "refused 1 at 42"),
    ("{H}(postulate a (ref q q))", "refused 1 at 43"),
    ("{H}(postulate a (ref (ref q)))", "refused 1 at 41"),
];

/// Declarations and terms as they are read.
pub const READING: &[(&str, &str)] = &[
    ("{H}(]", "refused 1 at 24"),
    ("{H}(bogus", "refused 1 at 24"),
    ("{H}(nat a nat)", "refused 1 at 24"),
    ("{H}()", "refused 1 at 24"),
    ("{H}(postulate)", "refused 1 at 33"),
    ("{H}(postulate a)", "refused 1 at 35"),
    ("{H}(postulate a nat", "refused 1 at 39"),
    ("{H}(postulate a nat nat)", "refused 1 at 40"),
    ("{H}(transparent a nat)", "refused 1 at 41"),
    ("{H}(opaque a nat nat nat)", "refused 1 at 41"),
    ("{H}(postulate a natx)", "refused 1 at 36"),
    ("{H}(postulate a a)", "refused 1 at 36"),
    ("{H}(postulate a (nat))", "refused 1 at 37"),
    ("{H}(postulate a (a))", "refused 1 at 37"),
    ("{H}(postulate a (var 0))", "refused 1 at 37"),
    ("{H}(postulate a (arrow nat nat))", "refused 1 at 37"),
    ("{H}(postulate a ((nat)))", "refused 1 at 37"),
    ("{H}(postulate a ())", "refused 1 at 37"),
    ("{H}(postulate a (fst", "refused 1 at 40"),
    ("{H}(postulate a (fst]", "refused 1 at 40"),
    ("{H}(postulate a (fst))", "refused 1 at 40"),
    ("{H}(postulate a (fst nat nat))", "refused 1 at 45"),
    ("{H}(postulate a (pi x nat))", "refused 1 at 45"),
    ("{H}(postulate a (universe 00))", "refused 1 at 46"),
    ("{H}(postulate a (universe x))", "refused 1 at 46"),
    ("{H}(postulate a (universe 1 1))", "refused 1 at 48"),
    (
        "{H}(transparent a nat zero)(opaque b unit star)",
        "nodes 4 declarations 2|0 nat|1 zero|2 unit|3 star|0 transparent a 0 1|1 opaque b 2 3",
    ),
    (
        "{H}(postulate a (universe 99999999999999999999999))",
        "nodes 1 declarations 1|0 universe 99999999999999999999999|0 postulate a 0",
    ),
    (
        "{H}(postulate a (j nat unit star zero empty (universe 7)))",
        "nodes 7 declarations 1|0 nat|1 unit|2 star|3 zero|4 empty|5 universe 7|6 j 0 1 2 3 4 5|0 postulate a 6",
    ),
    (
        "{H}(postulate a (app (app nat unit) (app star zero)))",
        "nodes 7 declarations 1|0 nat|1 unit|2 app 0 1|3 star|4 zero|5 app 3 4|6 app 2 5|0 postulate a 6",
    ),
];

/// Scope: what is seen where, and 4 and 5 after reading.
pub const SCOPE: &[(&str, &str)] = &[
    ("{H}(postulate a (ref a))", "refused 5"),
    ("{H}(transparent a nat (ref a))", "refused 5"),
    ("{H}(postulate a (ref b))(postulate b nat)", "refused 5"),
    ("{H}(postulate a (ref m))", "refused 5"),
    ("{H}(postulate m nat)", "nodes 1 declarations 1|0 nat|0 postulate m 0"),
    ("{H}(postulate a (ref q))(postulate b nat-elim)", "refused 1 at 57"),
    ("{H}(postulate a (ref q))(postulate nat nat)", "refused 3 at 55"),
    ("{H}(postulate a nat)(postulate a nat)]", "refused 1 at 57"),
    ("{H}(postulate a nat)(transparent a (ref q) (ref q))", "refused 4"),
    ("{H}(postulate a nat)(postulate b (ref q))(postulate a nat)", "refused 5"),
    ("{H}(postulate a (pi x (ref x) nat))", "refused 5"),
    ("{H}(postulate a (pi x nat nat))(postulate b (ref x))", "refused 5"),
    ("{H}(postulate a (app (lam x (ref x)) (ref x)))", "refused 5"),
    ("{H}(postulate ab nat)(postulate b (ref a))", "refused 5"),
    ("{H}(postulate a nat)(postulate b (ref ab))", "refused 5"),
    ("{H}(postulate a nat)(postulate b (ref A))", "refused 5"),
    ("{H}(postulate axb nat)(postulate b (ref ayb))", "refused 5"),
    (
        "{H}(postulate axb nat)(postulate ayb (ref axb))",
        "nodes 2 declarations 2|0 nat|1 global 0|0 postulate axb 0|1 postulate ayb 1",
    ),
    (
        "{H}(postulate a (lam axb (lam ayb (ref axb))))",
        "nodes 3 declarations 1|0 var 1|1 lam 0|2 lam 1|0 postulate a 2",
    ),
    (
        "{H}(postulate a (lam x (lam X (pair (ref x) (ref X)))))",
        "nodes 5 declarations 1|0 var 1|1 var 0|2 pair 0 1|3 lam 2|4 lam 3|0 postulate a 4",
    ),
    (
        "{H}(postulate a (lam ab (lam a (lam abc (pair (ref a) (ref ab))))))",
        "nodes 6 declarations 1|0 var 1|1 var 2|2 pair 0 1|3 lam 2|4 lam 3|5 lam 4|0 postulate a 5",
    ),
    (
        "{H}(postulate ab nat)(postulate a nat)(postulate AB nat)",
        "nodes 3 declarations 3|0 nat|1 nat|2 nat|0 postulate ab 0|1 postulate a 1|2 postulate AB 2",
    ),
    (
        "{H}(postulate a (pi x nat (pi x (ref x) (ref x))))",
        "nodes 5 declarations 1|0 nat|1 var 0|2 var 0|3 pi 1 2|4 pi 0 3|0 postulate a 4",
    ),
    (
        "{H}(postulate a (lam x (lam y (app (ref x) (ref y)))))",
        "nodes 5 declarations 1|0 var 1|1 var 0|2 app 0 1|3 lam 2|4 lam 3|0 postulate a 4",
    ),
    (
        "{H}(postulate x nat)(transparent y (ref x) (lam x (ref x)))",
        "nodes 4 declarations 2|0 nat|1 global 0|2 var 0|3 lam 2|0 postulate x 0|1 transparent y 1 3",
    ),
    (
        "{H}(postulate x nat)(postulate y (app (lam x (ref x)) (ref x)))",
        "nodes 5 declarations 2|0 nat|1 var 0|2 lam 1|3 global 0|4 app 2 3|0 postulate x 0|1 postulate y 4",
    ),
    (
        "{H}(postulate a (sigma _ nat (sigma _ (ref _) (id nat (ref _) (ref _)))))",
        "nodes 8 declarations 1|0 nat|1 var 0|2 nat|3 var 0|4 var 0|5 id 2 3 4|6 sigma 1 5|7 sigma 0 6|0 postulate a 7",
    ),
];

/// Edition 0 2: `arrow` is reserved and a form there, and an ordinary name and an unknown tag in 0 1.
pub const EDITION: &[(&str, &str)] = &[
    ("{2}", EMPTY),
    ("(surface;2\\n0;\\n2)(module m)", EMPTY),
    ("(surface 0 2)", "refused 1 at 13"),
    ("(surface 0 2)\\x00", "refused 1 at 13"),
    ("(surface 0 2)\\xc3\\xa9", "refused 1 at 13"),
    ("(surface 0 2)(module nat)", "refused 3 at 21"),
    // reserved in the four places of names
    ("(surface 0 2)(module arrow)", "refused 3 at 21"),
    ("(surface 0 2)(module arrow", "refused 3 at 21"),
    ("(surface 0 2)(module arrow]", "refused 1 at 26"),
    ("{2}(postulate arrow nat)", "refused 3 at 34"),
    ("{2}(opaque arrow", "refused 3 at 31"),
    ("{2}(postulate a (pi arrow nat nat))", "refused 3 at 40"),
    ("{2}(postulate a (lam arrow nat))", "refused 3 at 41"),
    ("{2}(postulate a (sigma arrow nat nat))", "refused 3 at 43"),
    ("{2}(postulate a (ref arrow))", "refused 3 at 41"),
    // and no leaf, no numeral, no declaration's word
    ("{2}(postulate a arrow)", "refused 1 at 36"),
    ("{2}(postulate a (fst arrow))", "refused 1 at 41"),
    ("{2}(postulate a (universe arrow))", "refused 1 at 46"),
    ("{2}(arrow a nat)", "refused 1 at 24"),
    ("{2}arrow", "refused 1 at 23"),
    ("(surface 0 2)(arrow m)", "refused 1 at 14"),
    // its like are names
    ("(surface 0 2)(module arrows)", EMPTY),
    ("(surface 0 2)(module Arrow)", EMPTY),
    ("{2}(postulate arro nat)", "nodes 1 declarations 1|0 nat|0 postulate arro 0"),
    ("{2}(postulate _arrow nat)", "nodes 1 declarations 1|0 nat|0 postulate _arrow 0"),
    ("{2}(postulate arrow-elim nat)", "refused 1 at 34"),
    // 0 1
    ("(surface 0 1)(module arrow)", EMPTY),
    ("{H}(postulate a arrow)", "refused 1 at 36"),
    (
        "{H}(postulate arrow nat)(postulate a (pi arrow (ref arrow) (ref arrow)))",
        "nodes 4 declarations 2|0 nat|1 global 0|2 var 0|3 pi 1 2|0 postulate arrow 0|1 postulate a 3",
    ),
    ("{H}(postulate a (lam arrow (ref arrow)))", "nodes 2 declarations 1|0 var 0|1 lam 0|0 postulate a 1"),
    ("{H}(postulate arrow nat)(postulate a (arrow nat nat))", "refused 1 at 58"),
    // the form: two terms and no name
    ("{2}(postulate a (arrow nat nat))", "nodes 3 declarations 1|0 nat|1 nat|2 pi 0 1|0 postulate a 2"),
    ("{2}(postulate a (arrow", "refused 1 at 42"),
    ("{2}(postulate a (arrow]", "refused 1 at 42"),
    ("{2}(postulate a (arrow))", "refused 1 at 42"),
    ("{2}(postulate a (arrow nat))", "refused 1 at 46"),
    ("{2}(postulate a (arrow nat nat", "refused 1 at 50"),
    ("{2}(postulate a (arrow nat nat nat))", "refused 1 at 51"),
    ("{2}(postulate a (arrow x nat nat))", "refused 1 at 43"),
    ("{2}(postulate a (arrow x nat))", "refused 1 at 43"),
    ("{2}(postulate a (arrow arrow nat))", "refused 1 at 43"),
    ("{2}(postulate a (arrow (x) nat))", "refused 1 at 44"),
    ("{2}(postulate a (arrows nat nat))", "refused 1 at 37"),
    (
        "{2}(postulate a (arrow(arrow;)\\nnat unit)star))",
        "nodes 5 declarations 1|0 nat|1 unit|2 pi 0 1|3 star|4 pi 2 3|0 postulate a 4",
    ),
    // in its codomain every count is one more, in its domain none
    (
        "{2}(postulate a (lam x (arrow (ref x) (ref x))))",
        "nodes 4 declarations 1|0 var 0|1 var 1|2 pi 0 1|3 lam 2|0 postulate a 3",
    ),
    (
        "{2}(postulate a (pi x nat (arrow (arrow (ref x) (ref x)) (arrow nat (ref x)))))",
        "nodes 9 declarations 1|0 nat|1 var 0|2 var 1|3 pi 1 2|4 nat|5 var 2|6 pi 4 5|7 pi 3 6|8 pi 0 7|0 postulate a 8",
    ),
    (
        "{2}(postulate a (arrow nat (pi x nat (arrow (ref x) (ref x)))))",
        "nodes 7 declarations 1|0 nat|1 nat|2 var 0|3 var 1|4 pi 2 3|5 pi 1 4|6 pi 0 5|0 postulate a 6",
    ),
    // no name reaches it, and it hides none
    ("{2}(postulate a (arrow nat (ref _)))", "refused 5"),
    ("{2}(postulate a (arrow nat (ref a)))", "refused 5"),
    (
        "{2}(postulate a (lam _ (arrow nat (ref _))))",
        "nodes 4 declarations 1|0 nat|1 var 1|2 pi 0 1|3 lam 2|0 postulate a 3",
    ),
    (
        "{2}(postulate _ nat)(postulate a (arrow (ref _) (ref _)))",
        "nodes 4 declarations 2|0 nat|1 global 0|2 global 0|3 pi 1 2|0 postulate _ 0|1 postulate a 3",
    ),
    // a pi keeps its name
    ("{2}(postulate a (pi x nat (ref x)))", "nodes 3 declarations 1|0 nat|1 var 0|2 pi 0 1|0 postulate a 2"),
];
