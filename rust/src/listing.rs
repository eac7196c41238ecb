//! Document 01's listing, as the library writes it.
use crate::Refusal;
use alloc::vec;
use alloc::vec::Vec;

/// The listing of a source.
#[derive(Clone, Debug, Eq, PartialEq)]
#[must_use]
pub struct Listing {
    /// Its lines, each ended by byte 10: the counts, the core rows, the declarations; or the one line of a refusal.
    pub text: Vec<u8>,
    /// Why the source is refused, if it is.
    pub refusal: Option<Refusal>,
}

impl Listing {
    /// Asks with room for a text of so many bytes and, as long as it is cut, with twice the room.
    pub(crate) fn with_room(bytes: usize, mut ask: impl FnMut(&mut [u8]) -> (u8, [u64; 4])) -> Self {
        let mut text = vec![0; bytes];
        loop {
            let (refusal, length) = told(ask(&mut text));
            if length <= text.len() {
                text.truncate(length);
                return Self { text, refusal };
            }
            text.resize(2 * text.len() + 64, 0);
        }
    }
}

/// The refusal and the length of the text.
fn told((class, answer): (u8, [u64; 4])) -> (Option<Refusal>, usize) {
    match (class, answer) {
        (0, [3, _, _, length]) => (None, length as usize),
        (1.., [2, offset, length, 0]) => (Some(Refusal::from_numbers(class, [1, offset, 0])), length as usize),
        (1.., [1, length, 0, 0]) => (Some(Refusal::from_numbers(class, [0, 0, 0])), length as usize),
        _ => unreachable!("the library's promise rules out {class} with {answer:?}"),
    }
}

#[cfg(test)]
mod tests {
    use super::*;
    use crate::Class;

    #[test]
    fn told_by_numbers() {
        assert_eq!(told((0, [3, 4, 2, 70])), (None, 70));
        let refused = |class, offset| Some(Refusal { class, offset });
        assert_eq!(told((1, [2, 9, 15, 0])), (refused(Class::Malformed, Some(9)), 15));
        assert_eq!(told((5, [1, 10, 0, 0])), (refused(Class::UnknownName, None), 10));
    }

    #[test]
    fn a_text_that_is_cut_is_asked_for_again() {
        let mut rooms = Vec::new();
        let listing = Listing::with_room(10, |text| {
            rooms.push(text.len());
            text.fill(b'x');
            (0, [3, 0, 0, 100.min(text.len() + 1) as u64])
        });
        assert_eq!((rooms, listing.text), (vec![10, 84, 232], vec![b'x'; 100]));
    }
}
