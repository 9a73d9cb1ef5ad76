//! The frame reader: a text, a place in it, and one frame at a time.

use crate::lines;

/// The part with the frame's digits at a place, as start and end, and the next place.
/// At the text's end and at a bad line: the empty part at the text's end, and it stays.
pub fn frame(text: &[u8], at: usize) -> (usize, usize, usize) {
    match lines::digits(text, at) {
        Some(digits) => (at, at + digits.len(), at + digits.len() + 1),
        None => (text.len(), text.len(), at),
    }
}
