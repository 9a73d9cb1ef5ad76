//! Damage to the frames of any text.

use super::{Frames, Random, ToFrames};

pub const KINDS: [ToFrames; 11] = [
    swapped,
    dropped,
    doubled,
    moved,
    kind_changed,
    lengthened,
    shortened,
    byte_changed,
    of_514_digits,
    of_516_digits,
    of_256_cells,
];

const FRAME_KINDS: [u8; 10] = [0x00, 0x01, 0x02, 0x03, 0x0F, 0x11, 0x12, 0x13, 0x14, 0xFF];

fn swapped(r: &mut Random, frames: &mut Frames) -> Option<()> {
    let (one, other) = (r.below(frames.len()), r.below(frames.len()));
    (one != other).then(|| frames.swap(one, other))
}

fn dropped(r: &mut Random, frames: &mut Frames) -> Option<()> {
    frames.remove(r.below(frames.len()));
    Some(())
}

fn doubled(r: &mut Random, frames: &mut Frames) -> Option<()> {
    let at = r.below(frames.len());
    frames.insert(at, frames[at].clone());
    Some(())
}

fn moved(r: &mut Random, frames: &mut Frames) -> Option<()> {
    let frame = frames.remove(r.below(frames.len()));
    frames.insert(r.below(frames.len() + 1), frame);
    Some(())
}

fn kind_changed(r: &mut Random, frames: &mut Frames) -> Option<()> {
    *any(r, frames).first_mut()? = r.pick(&FRAME_KINDS)?;
    Some(())
}

fn lengthened(r: &mut Random, frames: &mut Frames) -> Option<()> {
    let byte = r.below(256) as u8;
    let times = r.between(1, 4);
    any(r, frames).extend(std::iter::repeat_n(byte, times));
    Some(())
}

fn shortened(r: &mut Random, frames: &mut Frames) -> Option<()> {
    let dropped = r.between(1, 2);
    let frame = any(r, frames);
    frame.truncate(frame.len().saturating_sub(dropped));
    Some(())
}

fn byte_changed(r: &mut Random, frames: &mut Frames) -> Option<()> {
    let changed = r.below(256) as u8;
    let at = r.below(9);
    *any(r, frames).get_mut(at)? = changed;
    Some(())
}

/// The longest line there is, 257 bytes.
fn of_514_digits(r: &mut Random, frames: &mut Frames) -> Option<()> {
    any(r, frames).resize(257, 0x01);
    Some(())
}

/// One byte longer than a line can be.
fn of_516_digits(r: &mut Random, frames: &mut Frames) -> Option<()> {
    any(r, frames).resize(258, 0x01);
    Some(())
}

/// A set of all 256 cells.
fn of_256_cells(r: &mut Random, frames: &mut Frames) -> Option<()> {
    *any(r, frames) = std::iter::once(0x12).chain(0..=255).collect();
    Some(())
}

fn any<'a>(r: &mut Random, frames: &'a mut Frames) -> &'a mut Vec<u8> {
    let at = r.below(frames.len());
    &mut frames[at]
}
