//! The fixed lists: lines of SOURCE, a tab, ANSWER; lines that start with `#` are comments.
use crate::escape::{escape, unescape};
use std::collections::HashSet;
use std::fs;

pub struct Line {
    pub source: Vec<u8>,
    pub answer: String,
}

/// The lines of a list, or what is wrong with the file.
pub fn read(path: &str) -> Result<Vec<Line>, String> {
    let text = fs::read_to_string(path).map_err(|error| format!("{path}: {error}"))?;
    text.split_terminator('\n')
        .enumerate()
        .filter(|(_, line)| !line.starts_with('#'))
        .map(|(number, line)| parse(line).map_err(|error| format!("{path}:{}: {error}", number + 1)))
        .collect()
}

fn parse(line: &str) -> Result<Line, String> {
    let (source, answer) = line.split_once('\t').ok_or("no tab")?;
    Ok(Line {
        source: unescape(source)?,
        answer: String::from_utf8(unescape(answer)?).map_err(|error| error.to_string())?,
    })
}

/// A list in the making: each source stands in it once.
pub struct Draft {
    text: String,
    seen: HashSet<Vec<u8>>,
    answer: fn(&[u8]) -> String,
}

impl Draft {
    pub fn new(header: &[&str], answer: fn(&[u8]) -> String) -> Self {
        let mut draft = Self { text: String::new(), seen: HashSet::new(), answer };
        header.iter().for_each(|line| draft.comment(line));
        draft
    }

    pub fn comment(&mut self, line: &str) {
        self.text.push_str(format!("# {line}").trim_end());
        self.text.push('\n');
    }

    pub fn source(&mut self, source: &[u8]) {
        if !self.seen.insert(source.to_vec()) {
            return;
        }
        let escaped = escape(source);
        assert_eq!(unescape(&escaped).as_deref(), Ok(source), "{escaped}");
        let answer = escape((self.answer)(source).as_bytes());
        self.text.push_str(&format!("{escaped}\t{answer}\n"));
    }

    pub fn sources<S: AsRef<[u8]>>(&mut self, sources: impl IntoIterator<Item = S>) {
        for source in sources {
            self.source(source.as_ref());
        }
    }

    /// How many sources the list has.
    pub fn count(&self) -> usize {
        self.seen.len()
    }

    pub fn text(&self) -> &str {
        &self.text
    }
}
