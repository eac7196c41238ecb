// Stands in for format.rs, which docs/src does not have.
pub mod parser;
pub mod printer;
