//! believed [CRATE::]FUNCTION: the definitions on which a function's promise rests, by file: those that its `ensures` names,
//! those that these name, and so on. A line each, `CRATE/FILE: NAME ..`. believed CRATE/FILE: the same of all definitions of a
//! file of specs/. Run in the repository's folder.
use std::collections::{BTreeMap, BTreeSet, HashMap};
use std::path::{Path, PathBuf};
use std::{env, fs, process};

/// The file of a definition as CRATE/FILE, and its name.
type Name = (String, String);

/// A file of definitions, or of code: what it takes from elsewhere, and its own definitions with the words in them. A constructor
/// stands for the type that it belongs to; a field goes without saying, as its record is named where it is used.
#[derive(Default)]
struct File {
    imported: HashMap<String, Name>,
    words: HashMap<String, BTreeSet<String>>,
    owner: HashMap<String, String>,
}

fn words(text: &str) -> impl Iterator<Item = &str> {
    text.split(|c: char| c.is_whitespace() || "(){}[],;.".contains(c)).filter(|word| !word.is_empty())
}

/// `[ghost] use Rattle.CRATE.specs.FILE.{NAME, ..}`.
fn import(line: &str, file: &mut File) {
    let parts = line.split_once("use Rattle.").and_then(|(_, rest)| rest.split_once(".{"));
    let Some((path, names)) = parts else { return };
    let Some((of, within)) = path.split_once(".specs.") else { return };
    for name in words(names) {
        file.imported.insert(name.to_string(), (format!("{of}/{within}"), name.to_string()));
    }
}

/// The name that a line begins to define, if it does: `NAME : ..`, or `record NAME ..` and `data NAME ..`.
fn defined(line: &str) -> Option<&str> {
    let mut rest = line.trim_start();
    while let Some(less) = ["pub ", "abbrev ", "unfoldable "].iter().find_map(|word| rest.strip_prefix(word)) {
        rest = less;
    }
    if let Some(less) = ["record ", "data "].iter().find_map(|word| rest.strip_prefix(word)) {
        return less.split(' ').next();
    }
    let (name, follows) = rest.split_once(' ')?;
    (follows == ":" || follows.starts_with(": ")).then_some(name)
}

/// A file of specs/. What is indented deeper than the definitions around it belongs to the one above it.
fn specs(text: &str) -> File {
    let mut file = File::default();
    let (mut base, mut current, mut is_type) = (0, String::new(), false);
    for line in text.lines() {
        let start = line.trim_start();
        let indent = line.len() - start.len();
        if start.starts_with("use ") || start.starts_with("pub use ") {
            import(line, &mut file);
        } else if start.starts_with("module ") {
            base = indent + 2;
        } else if !start.is_empty() && !start.starts_with("--") {
            base = base.min(indent);
            match defined(line) {
                Some(name) if indent == base => (current, is_type) = (name.to_string(), line.contains("data ")),
                Some(name) if is_type => drop(file.owner.insert(name.to_string(), current.clone())),
                _ => {}
            }
            file.words.entry(current.clone()).or_default().extend(words(line).map(str::to_string));
        }
    }
    file
}

/// A file of src/ that has the function, and the words of its `ensures { .. }` and `ensures NAME { .. }`.
fn code(text: &str, function: &str) -> Option<(File, BTreeSet<String>)> {
    let begin = ["(", "<"].iter().find_map(|behind| text.find(&format!("fn {function}{behind}")))?;
    let clauses = text[begin..].split("\n{").next()?.split("ensures ").skip(1);
    let contract = clauses.filter_map(|clause| Some(clause.split_once('{')?.1));
    let mut file = File::default();
    text.lines().for_each(|line| import(line, &mut file));
    Some((file, contract.flat_map(words).map(str::to_string).collect()))
}

fn files(folder: &Path, ending: &str) -> Vec<PathBuf> {
    let Ok(entries) = fs::read_dir(folder) else { return Vec::new() };
    let within = |path: PathBuf| if path.is_dir() { files(&path, ending) } else { vec![path] };
    // what the prover keeps beside a crate is no source
    let sources = entries.flatten().map(|entry| entry.path()).filter(|path| !path.ends_with("out"));
    let all = sources.flat_map(within);
    all.filter(|path| path.to_string_lossy().ends_with(ending)).collect()
}

/// CRATE/FILE of crates/CRATE/specs/FILE.antt.
fn called(path: &Path) -> Option<String> {
    let (of, file) = path.to_str()?.strip_prefix("crates/")?.split_once("/specs/")?;
    Some(format!("{of}/{}", file.strip_suffix(".antt")?.replace('/', ".")))
}

/// Where a name that a file has is defined: there, as a constructor of a type there, or in the file that it is taken from.
fn home(all: &HashMap<String, File>, at: &str, name: &str) -> Option<Name> {
    let file = all.get(at)?;
    if file.words.contains_key(name) {
        return Some((at.to_string(), name.to_string()));
    }
    if let Some(owner) = file.owner.get(name) {
        return Some((at.to_string(), owner.clone()));
    }
    let (other, name) = file.imported.get(name)?;
    home(all, other, name)
}

/// All that the open names lead to, by file.
fn closure(all: &HashMap<String, File>, mut open: Vec<Name>) -> BTreeMap<String, BTreeSet<String>> {
    let mut found: BTreeMap<String, BTreeSet<String>> = BTreeMap::new();
    while let Some((at, name)) = open.pop() {
        if found.entry(at.clone()).or_default().insert(name.clone()) {
            open.extend(all[&at].words[&name].iter().filter_map(|word| home(all, &at, word)));
        }
    }
    found
}

/// The names in the promise of a function, [CRATE::]FUNCTION.
fn promised(all: &HashMap<String, File>, function: &str) -> Option<Vec<Name>> {
    let (of, function) = function.split_once("::").unwrap_or(("", function));
    let sources = files(&Path::new("crates").join(of), ".rt");
    let (file, promise) = sources.iter().find_map(|path| code(&read(path), function))?;
    let named = promise.iter().filter_map(|word| file.imported.get(word));
    Some(named.filter_map(|(at, name)| home(all, at, name)).collect())
}

/// All names of a file of specs/, CRATE/FILE.
fn defined_in(all: &HashMap<String, File>, file: &str) -> Option<Vec<Name>> {
    Some(all.get(file)?.words.keys().map(|name| (file.to_string(), name.clone())).collect())
}

fn read(path: &PathBuf) -> String {
    fs::read_to_string(path).unwrap_or_default()
}

fn main() {
    let asked = env::args().nth(1).unwrap_or_default();
    let specs_of = |path: &PathBuf| Some((called(path)?, specs(&read(path))));
    let all: HashMap<String, File> = files(Path::new("crates"), ".antt").iter().filter_map(specs_of).collect();
    let Some(open) = defined_in(&all, &asked).or_else(|| promised(&all, &asked)) else {
        eprintln!("usage: believed [CRATE::]FUNCTION | CRATE/FILE; there is no '{asked}'");
        process::exit(2);
    };
    for (file, names) in closure(&all, open) {
        println!("{file}: {}", names.into_iter().collect::<Vec<_>>().join(" "));
    }
}
