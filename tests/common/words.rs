//! What the tests for words say of an atom, as one line.
use crate::vocabulary::RESERVED;

/// The place among the reserved words, the name test and the numeral test.
pub fn line(index: u8, name_test: u8, numeral: bool) -> String {
    format!("index={index} name={name_test} numeral={}", u8::from(numeral))
}

/// The line that the Rust's three tests lead to: "The reserved test comes before the identifier test."
pub fn expected(word: &[u8], reserved: bool, identifier: bool, numeral: bool) -> String {
    let place = RESERVED.iter().position(|other| other.as_bytes() == word);
    let index = place.filter(|_| reserved).map_or(0, |place| place as u8 + 1);
    let name_test = match (reserved, identifier) {
        (true, _) => 3,
        (false, true) => 0,
        (false, false) => 1,
    };
    line(index, name_test, numeral)
}
