//! Lines: a text is lines of capital hexadecimal, one frame a line.

use crate::refusal;

/// The most bytes that one line carries.
const MOST_BYTES: usize = 257;

/// The value of a digit 0-9 A-F.
fn digit(character: u8) -> Option<u8> {
    match character {
        b'0'..=b'9' => Some(character - b'0'),
        b'A'..=b'F' => Some(character - b'A' + 10),
        _ => None,
    }
}

/// The digits of the line at a place, where that line keeps the rule for lines.
pub(crate) fn digits(text: &[u8], at: usize) -> Option<&[u8]> {
    let rest = text.get(at..)?;
    // One digit past the most is enough to know that the line is too long.
    let window = &rest[..rest.len().min(2 * MOST_BYTES + 1)];
    let count = window.iter().take_while(|c| digit(**c).is_some()).count();
    let good = count >= 2 && count % 2 == 0 && rest.get(count) == Some(&b'\n');
    good.then(|| &rest[..count])
}

/// Reads a text line by line.
pub(crate) struct Lines<'a> {
    text: &'a [u8],
    at: usize,
    bytes: [u8; MOST_BYTES],
}

impl<'a> Lines<'a> {
    pub fn new(text: &'a [u8]) -> Self {
        Lines {
            text,
            at: 0,
            bytes: [0; MOST_BYTES],
        }
    }

    /// The place after the last line that was read.
    pub fn place(&self) -> usize {
        self.at
    }

    /// The bytes of a frame that is due: the text's end there is 2, a bad line 1.
    pub fn due(&mut self) -> Result<&[u8], u8> {
        if self.at == self.text.len() {
            return Err(refusal::FRAME);
        }
        let digits = digits(self.text, self.at).ok_or(refusal::LINE)?;
        for (byte, pair) in self.bytes.iter_mut().zip(digits.chunks_exact(2)) {
            let high = digit(pair[0]).ok_or(refusal::LINE)?;
            let low = digit(pair[1]).ok_or(refusal::LINE)?;
            *byte = high * 16 + low;
        }
        self.at += digits.len() + 1;
        Ok(&self.bytes[..digits.len() / 2])
    }

    /// Nothing follows: a good line here is one too many, 2, and a bad one is 1.
    pub fn end(&mut self) -> Result<(), u8> {
        if self.at == self.text.len() {
            return Ok(());
        }
        self.due()?;
        Err(refusal::FRAME)
    }
}

/// Writes one frame as a line at the end of a text.
pub fn push_line(text: &mut Vec<u8>, bytes: &[u8]) {
    const DIGITS: &[u8; 16] = b"0123456789ABCDEF";
    for byte in bytes {
        text.push(DIGITS[usize::from(byte >> 4)]);
        text.push(DIGITS[usize::from(byte & 15)]);
    }
    text.push(b'\n');
}
