//! Counts what passed and what failed, and prints each mismatch.
use crate::escape::escape;
use crate::fault::fault;
use std::process::ExitCode;

/// The first difference found on a source.
pub struct Mismatch {
    pub what: String,
    pub expected: String,
    pub found: String,
}

/// A mismatch where the two values differ.
pub fn differ<T: PartialEq + ToString>(what: &str, expected: T, found: T) -> Option<Mismatch> {
    (expected != found).then(|| Mismatch {
        what: what.to_string(),
        expected: expected.to_string(),
        found: found.to_string(),
    })
}

/// A program may stop when so much failed.
const MOST_FAILURES: usize = 20;

#[derive(Default)]
pub struct Tally {
    passed: usize,
    failed: usize,
}

impl Tally {
    /// Counts one source; `mismatch` is None where all agreed.
    pub fn count(&mut self, source: &[u8], mismatch: Option<Mismatch>) {
        let Some(mismatch) = mismatch else {
            self.passed += 1;
            return;
        };
        self.failed += 1;
        println!("{} of source {}", mismatch.what, escape(source));
        println!("  expected {}", mismatch.expected);
        println!("  found    {}", mismatch.found);
    }

    /// Counts a failure that belongs to no source, as a list that cannot be read.
    pub fn broken(&mut self, what: &str) {
        self.failed += 1;
        println!("{what}");
    }

    /// Whether so much failed that going on would tell nothing new. A mistake made on purpose need be noticed once.
    pub fn is_hopeless(&self) -> bool {
        self.failed >= if fault().is_empty() { MOST_FAILURES } else { 1 }
    }

    /// Prints the last line and gives the exit status.
    pub fn finish(&self) -> ExitCode {
        println!("{} passed, {} failed", self.passed, self.failed);
        if self.failed == 0 && self.passed > 0 { ExitCode::SUCCESS } else { ExitCode::FAILURE }
    }
}
