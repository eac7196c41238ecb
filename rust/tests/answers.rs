//! Every source of tests/lists/answers.txt: a loaded one is shown as its listing and has its terms where its rows say, a
//! refused one is shown by its class and offset.
use sulyterom::{
    Class, LONGEST_SOURCE, Listing, Loaded, Loader, Reader, Row, SurfaceRow, Tables, load, load_by, tokens,
};

#[path = "../../tests/common/escape.rs"]
#[allow(dead_code)]
mod escape;

/// Every source with its answer.
fn list() -> Vec<(Vec<u8>, String)> {
    let path = concat!(env!("CARGO_MANIFEST_DIR"), "/../tests/lists/answers.txt");
    let text = std::fs::read_to_string(path).expect("the list");
    let lines = text.lines().filter(|line| !line.starts_with('#'));
    let line = |line: &str| {
        let (source, answer) = line.split_once('\t').expect("a tab");
        let answer = escape::unescape(answer).expect("an answer");
        (escape::unescape(source).expect("a source"), String::from_utf8(answer).expect("text").replace('|', "\n"))
    };
    lines.map(line).collect()
}

fn str(text: &[u8]) -> &str {
    std::str::from_utf8(text).expect("a listing is ASCII")
}

/// The listing, which all loaders give.
fn listed(loaders: &mut [Loader], source: &[u8]) -> Listing {
    let mut listings = loaders.iter_mut().map(|loader| loader.list(source));
    let first = listings.next().expect("a loader");
    assert!(listings.all(|listing| listing == first));
    first
}

const READERS: [Reader; 2] = [Reader::Frames, Reader::Plain];

#[test]
fn shown_as_listed() {
    let mut tables = Tables::for_bytes(LONGEST_SOURCE);
    let mut loaders = READERS.map(Loader::with_reader);
    let mut limits = 0;
    for (source, answer) in list() {
        match load(&source, &mut tables) {
            Ok(loaded) => {
                assert_eq!(loaded.to_string(), format!("{answer}\n"));
                let listing = listed(&mut loaders, &source);
                assert_eq!((str(&listing.text), listing.refusal), (format!("{answer}\n").as_str(), None));
            }
            // the list has the Rust's answer, which knows no such limits
            Err(refusal) if refusal.class >= Class::LongSource => limits += 1,
            Err(refusal) => {
                assert_eq!(refusal.to_string(), format!("{answer}: {}", refusal.class));
                let listing = listed(&mut loaders, &source);
                assert_eq!((str(&listing.text), listing.refusal), (format!("{answer}\n").as_str(), Some(refusal)));
            }
        }
    }
    assert!(limits > 0);
}

#[test]
fn both_readers_leave_the_same() {
    for (source, _) in list() {
        let [frames, plain] = READERS.map(|reader| {
            let mut tables = Tables::for_bytes(source.len());
            let told = load_by(&source, &mut tables, reader).map(|loaded| loaded.row_count());
            (told, tables)
        });
        assert!(frames == plain, "{}", String::from_utf8_lossy(&source));
    }
}

#[test]
fn both_tables_have_the_same_terms() {
    let mut tables = Tables::for_bytes(LONGEST_SOURCE);
    let mut seen = 0;
    for (source, _) in list() {
        let Ok(loaded) = load(&source, &mut tables) else { continue };
        for (read, row) in loaded.surface_rows().zip(loaded.rows()) {
            let (word, children) = match read {
                SurfaceRow::Ref { name } => {
                    let known = loaded.declarations().any(|declaration| declaration.name.bytes == name.bytes);
                    (if row.word() == "var" || !known { "var" } else { "global" }, vec![])
                }
                SurfaceRow::Pi { domain, codomain, .. } => ("pi", vec![domain, codomain]),
                SurfaceRow::Sigma { domain, codomain, .. } => ("sigma", vec![domain, codomain]),
                SurfaceRow::Lam { body, .. } => ("lam", vec![body]),
                SurfaceRow::Arrow { domain, codomain } => ("pi", vec![domain, codomain]),
                SurfaceRow::Same(same) => {
                    assert_eq!(same, row);
                    continue;
                }
                other => panic!("a new kind of row: {other:?}"),
            };
            assert_eq!((row.word(), row.children().collect()), (word, children));
            seen += 1;
        }
    }
    assert!(seen > 1_000, "{seen} rows with a name");
}

/// The tokens of the term at a row, put together from the surface rows alone.
fn written(loaded: &Loaded, number: usize, texts: &mut Vec<String>) {
    let (word, atom, children) = match loaded.surface_row(number).expect("a row") {
        SurfaceRow::Ref { name } => ("ref", Some(name), vec![]),
        SurfaceRow::Pi { binder, domain, codomain } => ("pi", Some(binder), vec![domain, codomain]),
        SurfaceRow::Sigma { binder, domain, codomain } => ("sigma", Some(binder), vec![domain, codomain]),
        SurfaceRow::Lam { binder, body } => ("lam", Some(binder), vec![body]),
        SurfaceRow::Arrow { domain, codomain } => ("arrow", None, vec![domain, codomain]),
        SurfaceRow::Same(Row::Universe { level }) => ("universe", Some(level), vec![]),
        SurfaceRow::Same(row) => (row.word(), None, row.children().collect()),
        other => panic!("a new kind of row: {other:?}"),
    };
    let bare = atom.is_none() && children.is_empty();
    texts.extend((!bare).then(|| String::from("(")));
    texts.push(word.to_string());
    texts.extend(atom.map(|atom| atom.as_str().to_string()));
    children.into_iter().for_each(|child| written(loaded, child, texts));
    texts.extend((!bare).then(|| String::from(")")));
}

/// Req 01: from the offset of a row on the source has the row's term, and it starts there.
fn check_offsets(source: &[u8]) -> usize {
    let mut tables = Tables::for_bytes(source.len());
    let Ok(loaded) = load(source, &mut tables) else { return 0 };
    for (number, offset) in loaded.offsets().enumerate() {
        let mut expected = Vec::new();
        written(&loaded, number, &mut expected);
        let from = &source[offset..];
        let found: Vec<_> = tokens(from).take(expected.len()).map(|token| token.expect("a token")).collect();
        let texts = found.iter().map(|token| std::str::from_utf8(&from[token.start..token.end]).expect("ASCII"));
        assert!(texts.eq(expected.iter().map(String::as_str)), "row {number} at {offset}");
        assert_eq!(found[0].start, 0, "row {number} starts at {offset}");
        assert_eq!(loaded.term(number), Some(&from[..found[found.len() - 1].end]), "row {number}");
        assert_eq!(loaded.offset(number), Some(offset));
    }
    assert_eq!((loaded.offset(loaded.row_count()), loaded.term(loaded.row_count())), (None, None));
    loaded.row_count()
}

#[test]
fn terms_start_where_their_rows_say() {
    let rows: usize = list().iter().map(|(source, _)| check_offsets(source)).sum();
    assert!(rows > 10_000, "{rows} rows");
    assert_eq!(check_offsets(b"(surface 0 1)(module m)(postulate x\t;(\n( ;)\nuniverse ;\n 7))"), 1);
}
