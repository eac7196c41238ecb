//! What the test programs share: sources, lists of answers, and counting.
pub mod alter;
pub mod damage;
pub mod escape;
pub mod fault;
pub mod lists;
pub mod modules;
pub mod printing;
pub mod prng;
pub mod refusal;
pub mod renaming;
pub mod tally;
pub mod tokens;
pub mod unicode;
pub mod vocabulary;
pub mod words;
