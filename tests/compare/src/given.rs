//! What a call was given, what came of it, and a smaller case of the same difference.

use crate::tally::Tally;
use std::fmt::{Display, Formatter};

/// Texts, bytes and numbers, as the call takes them.
#[derive(Clone, Default)]
pub struct Given {
    pub texts: Vec<Vec<u8>>,
    pub bytes: Vec<u8>,
    pub numbers: Vec<u64>,
}

/// What came of a comparison, or of a law.
pub enum Verdict {
    /// It holds, and this number of refusal came of it; 0 stands for an answer.
    Holds(u8),
    /// The law says nothing of what was given.
    Silent,
    Differs(String),
}

/// A comparison or a law, tried on what it is given.
pub type Differ = fn(&Given) -> Verdict;

/// The smallest case that was found to differ, and how it differs.
pub struct Difference {
    name: &'static str,
    small: Given,
    said: String,
}

/// Nothing, or the first difference.
pub type Held = Result<(), Difference>;

/// Tries and counts it; a difference is reduced.
pub fn hold(tally: &mut Tally, name: &'static str, differ: Differ, given: &Given) -> Held {
    match differ(given) {
        Verdict::Holds(number) => tally.note(name, number),
        Verdict::Silent => {}
        Verdict::Differs(said) => return Err(reduced(name, differ, given, said)),
    }
    Ok(())
}

impl Display for Difference {
    fn fmt(&self, f: &mut Formatter) -> std::fmt::Result {
        for text in &self.small.texts {
            let (length, shown) = (text.len(), String::from_utf8_lossy(text));
            writeln!(f, "text of {length} bytes: {shown:?}")?;
        }
        let Given { bytes, numbers, .. } = &self.small;
        writeln!(f, "bytes: {bytes:?}, numbers: {numbers:?}")?;
        write!(f, "{}: {}", self.name, self.said)
    }
}

/// Takes lines, then characters, then bytes away while it differs.
fn reduced(name: &'static str, differ: Differ, given: &Given, said: String) -> Difference {
    let small = given.clone();
    let mut least = Difference { name, small, said };
    for place in 0..given.texts.len() {
        for split in [after_line_feeds, single_characters] {
            let pieces = split(&least.small.texts[place]);
            least.drop_pieces(differ, pieces, |given, text| given.texts[place] = text);
        }
    }
    let bytes = single_characters(&least.small.bytes);
    least.drop_pieces(differ, bytes, |given, bytes| given.bytes = bytes);
    least
}

impl Difference {
    /// Leaves out every piece without which it still differs.
    fn drop_pieces(
        &mut self,
        differ: Differ,
        mut pieces: Vec<Vec<u8>>,
        put: impl Fn(&mut Given, Vec<u8>),
    ) {
        let mut at = 0;
        while at < pieces.len() {
            let piece = pieces.remove(at);
            let mut fewer = self.small.clone();
            put(&mut fewer, pieces.concat());
            if let Verdict::Differs(said) = differ(&fewer) {
                (self.small, self.said) = (fewer, said);
            } else {
                pieces.insert(at, piece);
                at += 1;
            }
        }
    }
}

fn after_line_feeds(text: &[u8]) -> Vec<Vec<u8>> {
    let lines = text.split_inclusive(|character| *character == b'\n');
    lines.map(<[u8]>::to_vec).collect()
}

fn single_characters(text: &[u8]) -> Vec<Vec<u8>> {
    text.iter().map(|character| vec![*character]).collect()
}
