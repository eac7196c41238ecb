//! What was measured of a case, and how a cell of a table shows it.
use crate::case::{Case, Task};
use crate::work::{Who, whos};

pub struct Row<'a> {
    pub case: &'a Case,
    /// Of each who has the task; none without valgrind.
    pub counts: Option<Vec<u64>>,
    pub seconds: Vec<f64>,
}

impl Row<'_> {
    /// Where the figures of one who has the task are.
    pub fn place(&self, who: Who) -> Option<usize> {
        whos(self.case.task).iter().position(|one| *one == who)
    }

    /// Instructions a byte.
    pub fn instructions(&self, who: Who) -> Option<f64> {
        Some(self.counts.as_ref()?[self.place(who)?] as f64 / self.case.text.len() as f64)
    }

    /// Million bytes a second.
    pub fn rate(&self, who: Who) -> Option<f64> {
        Some(self.case.text.len() as f64 / self.seconds[self.place(who)?] / 1e6)
    }

    /// How many times fewer instructions than the Rust's.
    pub fn fewer(&self, who: Who) -> Option<f64> {
        Some(self.instructions(Who::Rust)? / self.instructions(who)?)
    }

    /// How many times quicker than the Rust.
    pub fn quicker(&self, who: Who) -> Option<f64> {
        Some(self.rate(who)? / self.rate(Who::Rust)?)
    }
}

/// Those of a task that are compared with the Rust: no goal is set for the plain reader.
pub fn compared(task: Task) -> Vec<Who> {
    whos(task).iter().copied().filter(|who| ![Who::Plain, Who::Longest, Who::Rust].contains(who)).collect()
}

/// The columns of one measure, which is named where the tables are lent again.
pub fn titles(measure: &str, whos: &[Who]) -> Vec<String> {
    let title = |who: &Who| match who {
        Who::Lent => measure,
        Who::Plain => "plain reader",
        Who::Fresh => "fresh tables",
        Who::Longest => "longest tables",
        Who::Kept => "`Loader`",
        Who::Rust => "the Rust",
    };
    whos.iter().map(|who| title(who).to_owned()).collect()
}

pub fn number(value: Option<f64>, digits: usize) -> String {
    value.map_or("-".to_owned(), |value| format!("{value:.digits$}"))
}

/// A number, bold where it is not as wanted.
pub fn marked(value: Option<f64>, wanted: impl Fn(f64) -> bool) -> String {
    let text = number(value, 2);
    if value.is_none_or(wanted) { text } else { format!("**{text}**") }
}

/// A ratio, bold where it is below what is asked.
pub fn ratio(value: Option<f64>, asked: f64) -> String {
    marked(value, |value| value >= asked)
}

/// A line of a table.
pub fn line(cells: &[String]) -> String {
    format!("| {} |", cells.join(" | "))
}

/// The head of a table: the first column is of words, all others of numbers.
pub fn head(titles: &[String]) -> String {
    format!("{}\n|---|{}", line(titles), "---:|".repeat(titles.len() - 1))
}
