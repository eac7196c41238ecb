//! What is measured: a source, read or loaded, accepted or refused at its end.
use crate::kinds::Kind;
use hott_kernel::surface::parse_surface;
use std::fmt;
use sulyterom::Class;

#[derive(Clone, Copy, Debug, PartialEq)]
pub enum Task {
    Read,
    Load,
}

#[derive(Clone, Copy, Debug, PartialEq)]
pub enum Outcome {
    Accepted,
    Refused,
}

pub const TASKS: [Task; 2] = [Task::Load, Task::Read];
pub const OUTCOMES: [Outcome; 2] = [Outcome::Accepted, Outcome::Refused];

pub struct Case {
    pub kind: &'static Kind,
    /// At most so many bytes, but for the declaration that is refused.
    pub size: usize,
    pub task: Task,
    pub outcome: Outcome,
    pub text: Vec<u8>,
    /// As many as the source needs, up to where it is refused.
    pub rows: usize,
    pub declarations: usize,
}

impl Case {
    /// The rows that are answered: none after a refusal.
    pub fn answer(&self) -> usize {
        if self.outcome == Outcome::Accepted { self.rows } else { 0 }
    }

    /// Why it is refused.
    pub fn refusal(&self) -> Option<Class> {
        match (self.task, self.outcome) {
            (_, Outcome::Accepted) => None,
            (Task::Read, Outcome::Refused) => Some(Class::Malformed),
            (Task::Load, Outcome::Refused) => Some(Class::UnknownName),
        }
    }

    pub fn is(&self, task: Task, outcome: Outcome) -> bool {
        (self.task, self.outcome) == (task, outcome)
    }
}

/// The cases of a kind, in one order for all who ask.
pub fn cases(kind: &'static Kind, sizes: &[usize]) -> Vec<Case> {
    let of_size = |size: usize| {
        let accepted = (kind.source)(size);
        TASKS.map(|task| OUTCOMES.map(|outcome| case(kind, size, task, outcome, &accepted)))
    };
    kind.sizes
        .iter()
        .filter(|size| kind.sizes.len() == 1 || sizes.contains(size))
        .flat_map(|size| of_size(*size).into_iter().flatten())
        .collect()
}

/// A kind's accepted source of at most so many bytes, to be read.
pub fn reading(kind: &'static Kind, size: usize) -> Case {
    case(kind, size, Task::Read, Outcome::Accepted, &(kind.source)(size))
}

fn case(kind: &'static Kind, size: usize, task: Task, outcome: Outcome, accepted: &str) -> Case {
    let module = parse_surface(accepted.as_bytes()).expect("accepted");
    let (rows, declarations) = (module.arena().len(), module.declarations().len());
    let (last, more) = match (task, outcome) {
        (_, Outcome::Accepted) => ("", 0),
        (Task::Read, Outcome::Refused) => ("(postulate refused nat]", 1),
        (Task::Load, Outcome::Refused) => ("(postulate refused (ref unknown))", 1),
    };
    let text = format!("{accepted}{last}").into_bytes();
    Case { kind, size, task, outcome, text, rows: rows + more, declarations: declarations + more }
}

impl fmt::Display for Task {
    fn fmt(&self, formatter: &mut fmt::Formatter<'_>) -> fmt::Result {
        formatter.write_str(match self {
            Self::Read => "reading",
            Self::Load => "loading",
        })
    }
}

impl fmt::Display for Outcome {
    fn fmt(&self, formatter: &mut fmt::Formatter<'_>) -> fmt::Result {
        formatter.write_str(match self {
            Self::Accepted => "accepted",
            Self::Refused => "refused at the end",
        })
    }
}
