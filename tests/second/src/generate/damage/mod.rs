//! Damaged texts of every kind, of netlists, of sequences and of programs' inputs.

mod bytes;
mod frames;
mod netlists;
mod sequences;

use super::Random;
use crate::push_line;

/// Damage to the characters of a text; none where it has nothing to damage.
type ToBytes = fn(&mut Random, &mut Vec<u8>) -> Option<()>;

/// Damage to the bytes of a text's frames; the lines stay hexadecimal.
type ToFrames = fn(&mut Random, &mut Frames) -> Option<()>;

/// The bytes of each frame.
type Frames = Vec<Vec<u8>>;

/// A text with one or more kinds of damage; now and then it is still a good text.
pub fn damaged(r: &mut Random, text: &[u8]) -> Vec<u8> {
    let mut text = text.to_vec();
    loop {
        while damage(r, &mut text).is_none() {}
        if !r.once_in(4) {
            return text;
        }
    }
}

fn damage(r: &mut Random, text: &mut Vec<u8>) -> Option<()> {
    let of_frames: [&[ToFrames]; 3] = [&frames::KINDS, &netlists::KINDS, &sequences::KINDS];
    let family = r.below(of_frames.len() + 1);
    let Some(kinds) = of_frames.get(family) else {
        return r.pick(&bytes::KINDS)?(r, text);
    };
    let mut list = frames_of(text)?;
    r.pick(kinds)?(r, &mut list)?;
    text.clear();
    list.iter().for_each(|frame| push_line(text, frame));
    Some(())
}

/// The frames of a text, where all its lines are hexadecimal of any length.
fn frames_of(text: &[u8]) -> Option<Frames> {
    let lines = text
        .strip_suffix(b"\n")?
        .split(|character| *character == b'\n');
    lines.map(bytes_of).collect()
}

fn bytes_of(line: &[u8]) -> Option<Vec<u8>> {
    let line = std::str::from_utf8(line).ok()?;
    let pairs = (0..line.len()).step_by(2);
    pairs
        .map(|at| u8::from_str_radix(line.get(at..at + 2)?, 16).ok())
        .collect()
}

/// The place of any frame of a kind.
fn any_of(r: &mut Random, frames: &Frames, kind: u8) -> Option<usize> {
    let is_kind = |place: &usize| frames[*place].first() == Some(&kind);
    let places: Vec<usize> = (0..frames.len()).filter(is_kind).collect();
    r.pick(&places)
}

/// The first frame of a kind, where it has so many bytes.
fn head(frames: &mut Frames, kind: u8, length: usize) -> Option<&mut Vec<u8>> {
    let is_head = |frame: &&mut Vec<u8>| frame.first() == Some(&kind) && frame.len() == length;
    frames.iter_mut().find(is_head)
}

/// Adds to the two-byte number at a place of a frame, or takes from it.
fn add_to(frame: &mut [u8], at: usize, added: i16) {
    let number = u16::from_be_bytes([frame[at], frame[at + 1]]);
    let [high, low] = number.wrapping_add_signed(added).to_be_bytes();
    (frame[at], frame[at + 1]) = (high, low);
}
