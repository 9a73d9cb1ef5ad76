//! Damage to the frames of a netlist.

use super::{add_to, any_of, head, Frames, Random, ToFrames};

pub const KINDS: [ToFrames; 11] = [
    head_number,
    operands_swapped,
    operands_equal,
    own_number,
    any_operand,
    input_as_output,
    any_output,
    twin_gate,
    twin_output,
    unread_gate,
    operand_dropped,
];

/// A head's number at 0, its limit or one more.
fn head_number(r: &mut Random, frames: &mut Frames) -> Option<()> {
    let head = head(frames, 0x01, 5)?;
    let small = r.pick(&[0, 1, 64, 65, 255])?;
    match r.below(3) {
        0 => head[1] = small,
        1 => head[4] = small,
        _ => head[2..4].copy_from_slice(&r.pick(&[0u16, 1, 512, 513, 65_535])?.to_be_bytes()),
    }
    Some(())
}

fn operands_swapped(r: &mut Random, frames: &mut Frames) -> Option<()> {
    let gate = gate_of(r, frames, 5)?;
    (gate[1..5]).rotate_left(2);
    Some(())
}

fn operands_equal(r: &mut Random, frames: &mut Frames) -> Option<()> {
    let gate = gate_of(r, frames, 5)?;
    gate.copy_within(1..3, 3);
    Some(())
}

/// A gate reads itself or the next one, first or last of its operands.
fn own_number(r: &mut Random, frames: &mut Frames) -> Option<()> {
    let inputs = usize::from(*head(frames, 0x01, 5)?.get(1)?);
    let at = any_of(r, frames, 0x02)?;
    let before = frames[..at]
        .iter()
        .filter(|frame| frame.first() == Some(&0x02))
        .count();
    let own = (inputs + before + r.below(2)) as u16;
    let last = frames[at].len().checked_sub(2).filter(|last| *last >= 1)?;
    let place = r.pick(&[1, last])?;
    frames[at][place..place + 2].copy_from_slice(&own.to_be_bytes());
    Some(())
}

fn any_operand(r: &mut Random, frames: &mut Frames) -> Option<()> {
    let gate = gate_of(r, frames, 3)?;
    gate[2] = r.below(256) as u8;
    Some(())
}

fn input_as_output(r: &mut Random, frames: &mut Frames) -> Option<()> {
    let inputs = usize::from(*head(frames, 0x01, 5)?.get(1)?);
    let at = any_of(r, frames, 0x03)?;
    frames[at] = vec![0x03, 0x00, r.below(inputs) as u8];
    Some(())
}

/// Another gate as output, or a signal past the last gate.
fn any_output(r: &mut Random, frames: &mut Frames) -> Option<()> {
    let at = any_of(r, frames, 0x03).filter(|at| frames[*at].len() == 3)?;
    let added = r.pick(&[-2, -1, 1, 2])?;
    add_to(&mut frames[at], 1, added);
    Some(())
}

/// A later gate takes an earlier one's operands.
fn twin_gate(r: &mut Random, frames: &mut Frames) -> Option<()> {
    let (one, other) = (any_of(r, frames, 0x02)?, any_of(r, frames, 0x02)?);
    let (earlier, later) = (one.min(other), one.max(other));
    frames[later] = frames[earlier].clone();
    (earlier != later).then_some(())
}

fn twin_output(r: &mut Random, frames: &mut Frames) -> Option<()> {
    let (one, other) = (any_of(r, frames, 0x03)?, any_of(r, frames, 0x03)?);
    if one == other {
        frames.insert(one, frames[one].clone());
        let head = head(frames, 0x01, 5)?;
        head[4] = head[4].wrapping_add(1);
        return Some(());
    }
    frames[other] = frames[one].clone();
    Some(())
}

/// One more gate after the last, which nothing reads.
fn unread_gate(r: &mut Random, frames: &mut Frames) -> Option<()> {
    let after = 1 + frames
        .iter()
        .rposition(|frame| frame.first() == Some(&0x02))?;
    let copied = any_of(r, frames, 0x02)?;
    let mut gate = frames[copied].clone();
    if r.once_in(2) {
        *gate.last_mut()? ^= 1;
    }
    frames.insert(after, gate);
    add_to(head(frames, 0x01, 5)?, 2, 1);
    Some(())
}

fn operand_dropped(r: &mut Random, frames: &mut Frames) -> Option<()> {
    let gate = gate_of(r, frames, 5)?;
    gate.drain(1..3);
    Some(())
}

/// Any gate's frame, where it has at least so many bytes.
fn gate_of<'a>(r: &mut Random, frames: &'a mut Frames, length: usize) -> Option<&'a mut Vec<u8>> {
    let at = any_of(r, frames, 0x02)?;
    Some(&mut frames[at]).filter(|gate| gate.len() >= length)
}
