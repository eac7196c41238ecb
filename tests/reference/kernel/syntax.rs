// The unchanged file of docs/src.
include!("../../../docs/src/src/syntax.rs");
