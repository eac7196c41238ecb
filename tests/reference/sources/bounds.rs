//! Sources around document 01's limits: 65,535 bytes, 512 open frames, and the listing's tables.
use super::card::source;

/// Sources that keep every limit.
pub fn within() -> Vec<Vec<u8>> {
    let mut sources = long();
    sources.extend([511, 512].map(|frames| nested(frames, "(fst ", "star", ")")));
    sources.extend([
        nested(512, "(fst ", "(ref q)", ")"),
        nested(512, "(fst ", "(universe 1)", ")"),
        nested(512, "(lam x ", "(ref x)", ")"),
        nested(511, "(pi x nat ", "(ref x)", ")"),
        nested(511, "(pi x ", "nat", " nat)"),
        nested(511, "(app ", "nat", " unit)"),
        nested(511, "(pair nat ", "unit", ")"),
        nested(511, "(arrow nat ", "nat", ")"),
        nested(511, "(arrow ", "nat", " nat)"),
        arrows_between(510),
        nested(170, "(j nat unit star zero empty ", "nat", ")"),
        nested(170, "(j ", "nat", " unit star zero empty zero)"),
        outer_binder(509),
        side_by_side(300),
    ]);
    let last_frame = ["(bogus", "(pi nat", "(pi a-b", "(pi", "(fst]", "(pi x]", "(ref q)", "nat"];
    sources.extend(last_frame.map(|rest| open_frames(512, rest)));
    sources.extend(["(arrow]", "(arrows", "(pi arrow", "arrow"].map(|rest| open_arrows(512, rest)));
    let full_rows = ["(ref z", "(ref z z)", "(ref nat)", "(universe 00)", "natx", "nat]", "(fst (fst", "(pi nat"];
    sources.extend(full_rows.map(|rest| two_terms(512, 510, &format!("(postulate b {rest}"))));
    sources.push(two_terms(512, 510, ""));
    sources.push(declarations(200, "nat", "(opaque b (ref a128) (app (ref a0) (ref a199)))"));
    sources.extend(["", "(postulate b (ref a254))", "(postulate a254 nat)"].map(|rest| declarations(255, "nat", rest)));
    sources.extend(["", ")", "]", "nat", " ;x"].map(|rest| declarations(256, "nat", rest)));
    // 1,024 rows and 256 declarations at once
    sources.push(declarations(256, "(fst (fst (fst star)))", ""));
    sources
}

/// Sources that document 01 refuses with a class of its own, 6 to 9: the listing's tables for 8 and 9.
pub fn beyond() -> [(u8, Vec<Vec<u8>>); 4] {
    [(6, too_long()), (7, too_deep()), (8, too_many_rows()), (9, too_many_declarations())]
}

fn too_long() -> Vec<Vec<u8>> {
    [
        "{H}\\{65513: }",
        "{H}\\{65514: }",
        "{H};\\{65512:x}",
        "\\{65536: }",
        "\\{65536:\\xff}",
        "\\xef\\xbb\\xbf\\{65533: }",
        "(surface 0 3)\\{65523: }",
        "(surface 0 2)\\{65523: }",
        "{2}\\{65513: }",
        "{H}(postulate \\{65519:a} nat)",
    ]
    .map(source)
    .into()
}

/// 7 is "given after the tag and binder", whatever follows.
fn too_deep() -> Vec<Vec<u8>> {
    let mut sources: Vec<Vec<u8>> = [513, 514, 600].map(|frames| nested(frames, "(fst ", "star", ")")).into();
    sources.push(nested(513, "(lam x ", "(ref x)", ")"));
    sources.push(nested(513, "(arrow nat ", "nat", ")"));
    sources.extend(["(arrow", "(arrow ]", "(arrow x"].map(|rest| open_arrows(512, rest)));
    sources.extend(["", "nat", "(bogus", "]"].map(|rest| open_frames(513, rest)));
    sources.extend(["(fst", "(pi x", "(lam _ ", "(fst x", "(succ ]"].map(|rest| open_frames(512, rest)));
    sources
}

/// 8 is given when a term is complete: a leaf with its atom, any other with its parenthesis.
fn too_many_rows() -> Vec<Vec<u8>> {
    let mut sources = vec![
        two_terms(512, 511, ""),
        nested(512, "(pi x nat ", "(ref x)", ")"),
        nested(512, "(app ", "(ref q)", " unit)"),
    ];
    let full_rows = ["nat", "nat)", "nat x", "(ref z)", "(universe 0)]", "(fst (fst star"];
    sources.extend(full_rows.map(|rest| two_terms(512, 510, &format!("(postulate b {rest}"))));
    sources
}

/// 9 is given at the parenthesis, before the tag, and so before 8.
fn too_many_declarations() -> Vec<Vec<u8>> {
    let mut sources: Vec<Vec<u8>> = ["(", "(]", "(bogus"].map(|rest| declarations(256, "nat", rest)).into();
    sources.push(declarations(257, "nat", ""));
    sources.push(declarations(300, "nat", "(postulate b (app (ref a255) (ref a299)))"));
    sources.push(declarations(256, "(fst (fst (fst star)))", "(postulate b nat)"));
    sources
}

/// One postulate whose type is `inner` inside so many forms.
fn nested(frames: usize, open: &str, inner: &str, close: &str) -> Vec<u8> {
    let head = if open.starts_with("(arrow") { "{2}" } else { "{H}" };
    source(&format!("{head}(postulate a \\{{{frames}:{open}}}{inner}\\{{{frames}:{close}}})"))
}

/// A reference to the outermost of so many binders and one more.
fn outer_binder(frames: usize) -> Vec<u8> {
    source(&format!("{{H}}(postulate a (lam y \\{{{frames}:(lam x }}(app (ref y) (ref x))\\{{{frames}:)}}))"))
}

/// A reference to a binder with so many arrows between the two.
fn arrows_between(frames: usize) -> Vec<u8> {
    source(&format!("{{2}}(postulate a (lam y \\{{{frames}:(arrow nat }}(ref y)\\{{{frames}:)}}))"))
}

/// Two arguments with so many forms: more in all than may be open at once.
fn side_by_side(frames: usize) -> Vec<u8> {
    let nest = format!("\\{{{frames}:(succ }}zero\\{{{frames}:)}}");
    source(&format!("{{H}}(postulate a (pair {nest} {nest}))"))
}

/// A type and a body with so many open frames, and what follows their declaration.
fn two_terms(in_type: usize, in_body: usize, rest: &str) -> Vec<u8> {
    let nest = |frames| format!("\\{{{frames}:(fst }}star\\{{{frames}:)}}");
    source(&format!("{{H}}(transparent a {} {}){rest}", nest(in_type), nest(in_body)))
}

/// So many frames open, and then a rest and nothing more.
fn open_frames(frames: usize, rest: &str) -> Vec<u8> {
    source(&format!("{{H}}(postulate a \\{{{frames}:(fst }}{rest}"))
}

/// So many arrows open in their domain, and then a rest and nothing more.
fn open_arrows(frames: usize, rest: &str) -> Vec<u8> {
    source(&format!("{{2}}(postulate a \\{{{frames}:(arrow }}{rest}"))
}

/// So many postulates of a type, with names of their own, and what follows them.
fn declarations(count: usize, ty: &str, rest: &str) -> Vec<u8> {
    let all: String = (0..count).map(|place| format!("(postulate a{place} {ty})")).collect();
    source(&format!("{{H}}{all}{rest}"))
}

/// Sources of up to 65,535 bytes: layout, comments, names and numerals.
fn long() -> Vec<Vec<u8>> {
    [
        "{H}\\{65511: }",
        "{H}\\{65512:\\n}",
        "{H};\\{65511:x}",
        "{H}\\{32756:;\\n}",
        "{H}\\{65511: };",
        "{H}\\{65511: }]",
        "{H}\\{65511: }\\xff",
        "{H}\\{65511: }(",
        "\\{65535: }",
        "\\{65535:(}",
        "\\{65535:a}",
        "\\{65512: }{H}",
        "\\{65511: }{H};",
        ";\\{32756:\\xc3\\xa9}",
        ";\\{32767:\\xc3\\xa9}",
        "(surface 0 \\{65523:1})",
        "(surface 0 1)(module \\{65513:m})",
        "{H}(postulate \\{65496:a} nat)",
        "{H}(postulate \\{65495:a}- nat)",
        "{H}(postulate a (ref \\{60000:a}))",
        "{H}(postulate \\{30000:a} nat)(postulate \\{30000:a} nat)",
        "{H}(postulate \\{30000:a} nat)(postulate \\{29999:a}b nat)",
        "{H}(postulate \\{30000:a} nat)(postulate b (ref \\{30000:a}))",
        "{H}(postulate \\{30000:a} nat)(postulate b (ref \\{29999:a}b))",
        "{H}(postulate \\{30000:a} nat)(postulate b (ref b\\{29999:a}))",
        "{H}(postulate \\{30000:a} nat)(postulate b (ref \\{29999:a}))",
        "{H}(postulate a (lam \\{30000:x} (lam x (ref \\{30000:x}))))",
        "{H}(postulate a (lam \\{300:x}y (lam \\{300:x}z (ref \\{300:x}y))))",
        "{H}(postulate a (lam y\\{300:x} (lam z\\{300:x} (ref y\\{300:x}))))",
        "{H}(postulate a (universe \\{60000:7}))",
        "{H}(postulate a (universe 1\\{60000:0}))",
        "{H}(postulate a (universe 0\\{60000:1}))",
        "{H}(postulate a (universe \\{60000:7}x))",
    ]
    .map(source)
    .into()
}
