//! Core text: what is printed and read, the refusals of both, and what is left in the tables and the buffer. Every source of
//! tests/lists/answers.txt that loads is printed, and its text read as the same module.
use sulyterom::{
    Atom, Class, CoreText, Declaration, DeclarationKind, LONGEST_SOURCE, Loaded, Loader, RECORD_WORDS, ROW_WORDS,
    Refusal, Row, Tables, TextRow, WORK_WORDS, load, print, read_canonical, read_core, text_room,
};

#[path = "../../tests/common/escape.rs"]
#[allow(dead_code)]
mod escape;

const HEAD: &str = "(surface 0 1)(module m)";
const INPUT: &[u8] = b"(surface 0 1)(module m)(postulate x nat)(postulate y (pi x (ref x) (ref x)))";
/// The text of a source without declarations is this, two parentheses and byte 10.
const TEXT_HEAD: &str = "(hott-core (format 0 1) (theory \"mltt-core\" 0 1) (declarations";
const DECLARATIONS: &str = r#" (postulate "x" nat) (postulate "y" (pi (global 0) (var 0)))"#;

/// A text that is its own print if the declarations are printed.
fn text_of(declarations: &str) -> String {
    format!("{TEXT_HEAD}{declarations}))\n")
}

fn nowhere(class: Class) -> Refusal {
    Refusal { class, offset: None }
}

fn at(offset: usize) -> Refusal {
    Refusal { class: Class::CoreText, offset: Some(offset) }
}

/// Tables of these lengths in words, with no 0 in them.
fn rubbish(lengths: [usize; 4]) -> Tables {
    let [surface, core, declarations, work] = lengths.map(|length| vec![7; length]);
    Tables::from_words(surface, core, declarations, work)
}

#[test]
fn the_listings_example() {
    let mut loader = Loader::new();
    let text = loader.print(INPUT).unwrap();
    assert_eq!(text, text_of(DECLARATIONS).into_bytes());
    let example = concat!(env!("CARGO_MANIFEST_DIR"), "/../examples/listing.core");
    assert_eq!(std::fs::read(example).unwrap(), text);
    let listing = loader.load(INPUT).unwrap().to_string();
    assert_eq!(loader.read_canonical(&text).unwrap().to_string(), listing);
    assert_eq!(loader.read_core(&text).unwrap().to_string(), listing);
}

#[test]
fn rows_and_declarations_refer_to_the_text() {
    let text = text_of(r#" (opaque "\\ é" (universe 12) (app (global 345) (var 6)))"#).into_bytes();
    let find = |part: &str| text.windows(part.len()).position(|bytes| bytes == part.as_bytes()).unwrap();
    let atom = |part: &str| Atom { start: find(part), bytes: &text[find(part)..][..part.len()] };
    let mut tables = Tables::for_text(text.len());
    let read = read_core(&text, &mut tables).unwrap();
    let rows = [
        TextRow::Same(Row::Universe { level: atom("12") }),
        TextRow::Global { place: atom("345") },
        TextRow::Var { count: atom("6") },
        TextRow::Same(Row::App { function: 1, argument: 2 }),
    ];
    assert!(read.rows().eq(rows));
    assert_eq!((read.row(2), read.row(4), read.row_count()), (Some(rows[2]), None, 4));
    let offsets = ["(universe", "(global", "(var", "(app"].map(find);
    assert!(read.offsets().eq(offsets));
    assert_eq!((read.offset(3), read.offset(4)), (Some(offsets[3]), None));
    let name = atom(r"\\ é");
    let declaration = Declaration { kind: DeclarationKind::Opaque, name, ty: 0, body: Some(3) };
    assert!(read.declarations().eq([declaration]));
    assert_eq!((read.declaration(0), read.declaration(1), read.declaration_count()), (Some(declaration), None, 1));
    assert!(std::ptr::eq(read.declaration(0).unwrap().name.bytes, &text[name.start..][..5]));
    assert_eq!((read.place_of(r"\\ é".as_bytes()), read.place_of("é".as_bytes())), (Some(0), None));
    assert_eq!(read.text(), text);
    assert_eq!(read.rows().map(|row| row.word()).collect::<Vec<_>>(), ["universe", "global", "var", "app"]);
    assert_eq!(rows[3].children().collect::<Vec<_>>(), [1, 2]);
    assert_eq!(rows[1].children().count(), 0);
}

#[test]
fn what_printing_leaves() {
    let text = text_of(DECLARATIONS);
    let mut loaded = rubbish([41, 33, 14, WORK_WORDS + 1]);
    load(INPUT, &mut loaded).unwrap();
    // room to spare, and just so much
    for room in [text.len() + 9, text.len()] {
        let (mut tables, mut buffer) = (rubbish([41, 33, 14, WORK_WORDS + 1]), vec![7; room]);
        let printed = print(INPUT, &mut tables, &mut buffer).unwrap();
        assert_eq!((printed.text, printed.loaded.row_count()), (text.as_bytes(), 4));
        assert_eq!((&buffer[..text.len()], &buffer[text.len()..]), (text.as_bytes(), &vec![0; room - text.len()][..]));
        assert_eq!(tables, loaded);
    }
    // a byte less, and none
    for room in [text.len() - 1, 0] {
        let (mut tables, mut buffer) = (rubbish([41, 33, 14, WORK_WORDS]), vec![7; room]);
        assert_eq!(print(INPUT, &mut tables, &mut buffer).unwrap_err(), nowhere(Class::TextShort));
        assert_eq!(buffer, vec![0; room]);
        assert!(tables.into_words().iter().flatten().all(|word| *word == 0));
    }
}

#[test]
fn loading_comes_before_the_buffer() {
    let refused = |source: &[u8], lengths| {
        let (mut tables, mut buffer) = (rubbish(lengths), [7; 3]);
        let refusal = print(source, &mut tables, &mut buffer).unwrap_err();
        assert!(tables.into_words().iter().flatten().all(|word| *word == 0), "left by {refusal}");
        assert_eq!(buffer, [0; 3]);
        refusal
    };
    let lengths = [32, 32, 10, WORK_WORDS];
    assert_eq!(refused(b"(", lengths), Refusal { class: Class::Malformed, offset: Some(1) });
    assert_eq!(refused(b"(surface 0 1)(module m)(postulate a (ref q))", lengths), nowhere(Class::UnknownName));
    assert_eq!(refused(INPUT, [31, 32, 10, WORK_WORDS]), nowhere(Class::SurfaceFull));
    assert_eq!(refused(INPUT, [32, 31, 10, WORK_WORDS]), nowhere(Class::CoreShort));
    assert_eq!(refused(INPUT, [32, 32, 10, WORK_WORDS - 1]), nowhere(Class::WorkShort));
    assert_eq!(refused(INPUT, lengths), nowhere(Class::TextShort));
    assert_eq!(Loader::new().print(&[b' '; LONGEST_SOURCE + 1]).unwrap_err(), nowhere(Class::LongSource));
}

#[test]
fn what_reading_leaves() {
    let text = text_of(DECLARATIONS);
    let mut tables = rubbish([3, 4 * ROW_WORDS + 9, 2 * RECORD_WORDS + 6, WORK_WORDS + 2]);
    assert_eq!(read_canonical(text.as_bytes(), &mut tables).unwrap().row_count(), 4);
    let start = |part: &str| text.find(part).unwrap() as u32;
    let mut core = vec![19, 0, 0, 0, 0, 0, 0, start("nat")];
    // the first numeral before a parenthesis that is no 1 is the global's
    core.extend([2, start("0)"), 1, 0, 0, 0, 0, start("(global")]);
    core.extend([1, start("0)))"), 1, 0, 0, 0, 0, start("(var")]);
    core.extend([4, 1, 2, 0, 0, 0, 0, start("(pi")]);
    core.extend([0; 9]);
    let mut records = vec![1, start("x\""), 1, 0, 0, 1, start("y\""), 1, 3, 0];
    records.extend([0; 6]);
    assert_eq!(tables, Tables::from_words(vec![7; 3], core, records, vec![0; WORK_WORDS + 2]));
}

/// Reads into tables of these lengths in words, by both readers, and sees that a refusal leaves 0 and the surface table.
fn refused_with(text: &[u8], [core, declarations, work]: [usize; 3]) -> [Refusal; 2] {
    let refused = |read: &dyn Fn(&mut Tables) -> Refusal| {
        let mut tables = rubbish([5, core, declarations, work]);
        let refusal = read(&mut tables);
        let left = Tables::from_words(vec![7; 5], vec![0; core], vec![0; declarations], vec![0; work]);
        assert_eq!(tables, left, "left by {refusal}");
        refusal
    };
    let any = refused(&|tables| read_core(text, tables).unwrap_err());
    [any, refused(&|tables| read_canonical(text, tables).unwrap_err())]
}

/// The refusal that both readers give.
fn refused(text: &str) -> Refusal {
    let [any, canonical] = refused_with(text.as_bytes(), [600 * ROW_WORDS, 3 * RECORD_WORDS, WORK_WORDS]);
    assert_eq!(any, canonical);
    any
}

#[test]
fn malformed_texts() {
    assert_eq!(refused(""), at(0));
    assert_eq!(refused("(hott-semantic"), at(1));
    assert_eq!(refused(&format!("\u{feff}{}", text_of(""))), at(0));
    let bytes = [text_of("").as_bytes(), b"\xc3"].concat();
    assert_eq!(refused_with(&bytes, [0, 0, WORK_WORDS]), [at(65); 2]);
    let behind = |declarations: &str| refused(&text_of(declarations)).offset.map(|at| at - TEXT_HEAD.len());
    assert_eq!(behind(r#"(postulate "x" nat;)"#), Some(15));
    assert_eq!(behind(r#"(postulate "x" (ref y))"#), Some(16));
    assert_eq!(behind(r#"(postulate "" nat)"#), Some(11));
    assert_eq!(behind(r#"(postulate "\n" nat)"#), Some(12));
    assert_eq!(behind("(postulate \"a\tb\" nat)"), Some(13));
    assert_eq!(behind(r#"(postulate "x" (var 01))"#), Some(20));
    // not closed: at its quote, but byte 10 is refused before the end is met
    assert_eq!(behind(r#"(postulate "x"#), Some(15));
    assert_eq!(refused(&format!("{TEXT_HEAD}(postulate \"x")), at(TEXT_HEAD.len() + 11));
}

#[test]
fn versions_and_limits() {
    let other = |part: &str, by: &str| refused(&text_of("").replace(part, by));
    assert_eq!(other("(format 0 1)", "(format 0 2)"), nowhere(Class::Version));
    assert_eq!(other("mltt-core", "mltt"), nowhere(Class::Version));
    assert_eq!(other("\" 0 1)", "\" 1 0)"), nowhere(Class::Version));
    let nested =
        |forms: usize| text_of(&format!(" (postulate \"a\" {}star{})", "(fst ".repeat(forms), ")".repeat(forms)));
    assert_eq!(read_canonical(nested(512).as_bytes(), &mut Tables::with_sizes(513, 1)).unwrap().row_count(), 513);
    assert_eq!(refused(&nested(513)), nowhere(Class::Frames));
    let with = |lengths| refused_with(text_of(DECLARATIONS).as_bytes(), lengths);
    assert_eq!(with([32, 9, WORK_WORDS]), [nowhere(Class::DeclarationsFull); 2]);
    assert_eq!(with([31, 10, WORK_WORDS]), [nowhere(Class::CoreShort); 2]);
    assert_eq!(with([32, 10, WORK_WORDS - 1]), [nowhere(Class::WorkShort); 2]);
    assert_eq!(with([0, 0, 0]), [nowhere(Class::WorkShort); 2]);
}

#[test]
fn a_name_used_twice_and_another_layout_come_last() {
    let twice = r#" (postulate "x" nat) (opaque "x" nat zero)"#;
    assert_eq!(refused(&text_of(twice)), at(0));
    // found only when all was read, and before the layout
    assert_eq!(refused(&text_of(&format!("{twice} nat"))), at(TEXT_HEAD.len() + twice.len() + 1));
    let text = text_of(twice);
    assert_eq!(refused(text.trim_end()), at(0));

    let text = text_of(DECLARATIONS);
    let mut loader = Loader::new();
    let listing = loader.read_canonical(text.as_bytes()).unwrap().to_string();
    for other in [text.trim_end(), &format!(" {text}"), &format!("{text}\n"), &text.replace(") (", ")(")] {
        assert_eq!(loader.read_core(other.as_bytes()).unwrap().to_string(), listing);
        assert_eq!(loader.read_canonical(other.as_bytes()).unwrap_err(), nowhere(Class::CoreText), "{other}");
    }
}

/// Whether a text that was read is of the module that was loaded: a var and a global by their numerals' values, all else
/// as it stands, and terms where the text has them.
fn assert_same(loaded: &Loaded, read: &CoreText) {
    assert_eq!(read.to_string(), loaded.to_string());
    for ((read_row, row), offset) in read.rows().zip(loaded.rows()).zip(read.offsets()) {
        match (read_row, row) {
            (TextRow::Var { count }, Row::Var { count: number }) => assert_eq!(count.as_str().parse(), Ok(number)),
            (TextRow::Global { place }, Row::Global { place: number }) => {
                assert_eq!(place.as_str().parse(), Ok(number))
            }
            (TextRow::Same(Row::Universe { level }), Row::Universe { level: digits }) => {
                assert_eq!(level.bytes, digits.bytes);
            }
            (TextRow::Same(same), row) => assert_eq!(same, row),
            (other, row) => panic!("{other} for {row}"),
        }
        let bare = read_row.children().next().is_none() && read_row.to_string() == read_row.word();
        let begins = if bare { read_row.word().to_string() } else { format!("({} ", read_row.word()) };
        assert!(read.text()[offset..].starts_with(begins.as_bytes()), "{read_row} at {offset}");
    }
}

#[test]
fn every_source_of_the_list_is_printed_and_read_back() {
    let path = concat!(env!("CARGO_MANIFEST_DIR"), "/../tests/lists/answers.txt");
    let list = std::fs::read_to_string(path).expect("the list");
    let (mut loader, mut reader) = (Loader::new(), Loader::new());
    let mut printed = 0;
    for line in list.lines().filter(|line| !line.starts_with('#')) {
        let source = escape::unescape(line.split_once('\t').expect("a tab").0).expect("a source");
        let text = loader.print(&source);
        match loader.load(&source) {
            Ok(loaded) => {
                let text = text.expect("what loads is printed");
                assert!(text.len() <= text_room(source.len()));
                assert_same(&loaded, &reader.read_canonical(&text).expect("what is printed is read"));
                assert_same(&loaded, &reader.read_core(&text).expect("in any layout"));
                printed += 1;
            }
            Err(refusal) => assert_eq!(text, Err(refusal)),
        }
    }
    assert!(printed > 500, "{printed} texts");
}

/// One-letter names for the references, behind so many declarations that their places have four digits.
fn references(arguments: &str) -> String {
    let mut source = HEAD.to_owned();
    (0..1_000).for_each(|at| source.push_str(&format!("(postulate a{at} nat)")));
    source.push_str("(postulate x nat)");
    let mut place = 0;
    while source.len() + 100 < LONGEST_SOURCE {
        source.push_str(&format!("(opaque b{place}{arguments}{arguments})"));
        place += 1;
    }
    source
}

#[test]
fn the_room_for_a_text_suffices_and_is_not_far_too_much() {
    assert_eq!((text_room(23), text_room(LONGEST_SOURCE), text_room(usize::MAX)), (65, 131_089, 131_089));
    assert_eq!(Loader::new().print(HEAD.as_bytes()).unwrap().len(), text_room(HEAD.len()));
    let source = references(&format!("(j{})", "(ref x)".repeat(6)));
    let text = Loader::new().print(source.as_bytes()).unwrap();
    assert!(text.len() <= text_room(source.len()));
    assert!(text.len() * 10 > source.len() * 16, "{} bytes from {}", text.len(), source.len());
    for arguments in ["(j(ref x)nat(ref x)nat(ref x)nat)", " nat", "(pi x(ref x)(ref x))", "(lam x(ref x))"] {
        let source = references(arguments);
        assert!(Loader::new().print(source.as_bytes()).unwrap().len() <= text_room(source.len()));
    }
}

#[test]
fn for_text_suffices_for_dense_texts() {
    let dense =
        (0..5).fold(String::from("(j nat nat nat nat nat nat)"), |inner, _| format!("(j{0}nat{0}nat{0}nat)", inner));
    let mut loader = Loader::new();
    for declarations in [format!("(postulate\"a\"{dense})"), dense_declarations(2_000)] {
        let text = format!("(hott-core(format 0 1)(theory\"mltt-core\"0 1)(declarations{declarations}))");
        let mut tables = Tables::for_text(text.len());
        let read = read_core(text.as_bytes(), &mut tables).unwrap();
        assert!(read.row_count() * 5 > text.len() || read.declaration_count() * 21 > text.len());
        assert!(loader.read_core(text.as_bytes()).unwrap().rows().eq(read.rows()));
        // the loader's tables serve sources again
        assert_eq!(loader.load(INPUT).unwrap().row_count(), 4);
    }
    // longer than any source
    let text = text_of(&format!(" (postulate \"{}\" nat)", "é".repeat(100_000)));
    assert_eq!(loader.read_canonical(text.as_bytes()).unwrap().declaration(0).unwrap().name.bytes.len(), 200_000);
}

/// As many short declarations as are wanted.
fn dense_declarations(count: usize) -> String {
    (0..count).map(|at| format!("(postulate\"{at:x}\"nat)")).collect()
}
