//! What a word prints and how it ends.
use std::process::ExitCode;

/// How a question ended. The number is the exit status, for all words.
#[derive(Clone, Copy, Debug, Eq, Ord, PartialEq, PartialOrd)]
#[repr(u8)]
pub enum Status {
    /// Accepted, yes, the same.
    Yes = 0,
    /// No, different.
    No = 1,
    /// A source or a core text is refused.
    Refused = 2,
    /// The question could not be asked, or its answer not be told.
    NotAsked = 3,
}

impl From<Status> for ExitCode {
    fn from(status: Status) -> Self {
        Self::from(status as u8)
    }
}

/// Why a question could not be asked.
#[derive(Debug)]
pub struct NotAsked(pub String);

impl NotAsked {
    pub fn message(&self) -> String {
        format!("sulyterom: {}", self.0)
    }
}

/// What goes to standard output, what to standard error, and how the program ends.
pub struct Answer {
    pub status: Status,
    pub text: Vec<u8>,
    pub messages: Vec<String>,
}

impl Answer {
    pub fn new(status: Status, text: impl Into<Vec<u8>>) -> Self {
        Self { status, text: text.into(), messages: Vec::new() }
    }

    pub fn refused(line: impl Into<Vec<u8>>, message: String) -> Self {
        Self { status: Status::Refused, text: line.into(), messages: vec![message] }
    }

    pub fn not_asked(reason: &NotAsked) -> Self {
        Self { status: Status::NotAsked, text: Vec::new(), messages: vec![reason.message()] }
    }

    /// The answers one behind another, each line with words in front. The status is the gravest.
    pub fn add(&mut self, front: &[u8], other: Self) {
        self.status = self.status.max(other.status);
        for line in other.text.split_inclusive(|byte| *byte == b'\n') {
            self.text.extend_from_slice(front);
            self.text.extend_from_slice(line);
        }
        self.messages.extend(other.messages);
    }
}
