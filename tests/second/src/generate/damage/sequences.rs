//! Damage to the frames of a sequence.

use super::{add_to, any_of, head, Frames, Random, ToFrames};

pub const KINDS: [ToFrames; 16] = [
    head_number,
    row_changed,
    other_inputs,
    other_outputs,
    instruction_missing,
    instruction_doubled,
    set_missing,
    other_operand,
    operands_reversed,
    operand_twice,
    operand_added,
    other_written,
    input_cell_set,
    set_cells_swapped,
    cell_past_row,
    other_place,
];

/// A head's number at 0, its limit or one more.
fn head_number(r: &mut Random, frames: &mut Frames) -> Option<()> {
    let head = head(frames, 0x11, 6)?;
    let small = r.pick(&[0, 1, 64, 65, 255])?;
    match r.below(4) {
        0 => head[1] = small,
        1 => head[2] = small,
        2 => head[3] = small,
        _ => head[4..6].copy_from_slice(&r.pick(&[0u16, 1, 1024, 1025, 65_535])?.to_be_bytes()),
    }
    Some(())
}

fn row_changed(r: &mut Random, frames: &mut Frames) -> Option<()> {
    let head = head(frames, 0x11, 6)?;
    head[1] = head[1].wrapping_add_signed(r.pick(&[-2, -1, 1, 2])?);
    Some(())
}

fn other_inputs(r: &mut Random, frames: &mut Frames) -> Option<()> {
    let head = head(frames, 0x11, 6)?;
    head[2] = head[2].wrapping_add_signed(r.pick(&[-1, 1])?);
    Some(())
}

/// One place more or one fewer, and the head with it.
fn other_outputs(r: &mut Random, frames: &mut Frames) -> Option<()> {
    let at = any_of(r, frames, 0x14)?;
    let place = frames[at].clone();
    let added = r.pick(&[-1, 1])?;
    match added {
        1 => frames.insert(at, place),
        _ => drop(frames.remove(at)),
    }
    let head = head(frames, 0x11, 6)?;
    head[3] = head[3].wrapping_add_signed(added);
    Some(())
}

fn instruction_missing(r: &mut Random, frames: &mut Frames) -> Option<()> {
    let kind = r.pick(&[0x12, 0x13])?;
    frames.remove(any_of(r, frames, kind)?);
    add_to(head(frames, 0x11, 6)?, 4, -1);
    Some(())
}

fn instruction_doubled(r: &mut Random, frames: &mut Frames) -> Option<()> {
    let kind = r.pick(&[0x12, 0x13])?;
    let at = any_of(r, frames, kind)?;
    frames.insert(at, frames[at].clone());
    add_to(head(frames, 0x11, 6)?, 4, 1);
    Some(())
}

/// One cell is missing in a set; the last cell of all takes the line with it.
fn set_missing(r: &mut Random, frames: &mut Frames) -> Option<()> {
    let at = any_of(r, frames, 0x12)?;
    let place = r.between(1, frames[at].len().checked_sub(1)?);
    if frames[at].len() > 2 {
        frames[at].remove(place);
        return Some(());
    }
    frames.remove(at);
    add_to(head(frames, 0x11, 6)?, 4, -1);
    Some(())
}

fn other_operand(r: &mut Random, frames: &mut Frames) -> Option<()> {
    let cell = any_cell(r, frames)?;
    let nor = nor_of(r, frames, 3)?;
    let place = r.between(2, nor.len() - 1);
    nor[place] = cell;
    Some(())
}

/// Still a good sequence: operands stand in any order.
fn operands_reversed(r: &mut Random, frames: &mut Frames) -> Option<()> {
    nor_of(r, frames, 4)?[2..].reverse();
    Some(())
}

/// A cell stands twice, the written one or another.
fn operand_twice(r: &mut Random, frames: &mut Frames) -> Option<()> {
    let nor = nor_of(r, frames, 3)?;
    let place = r.between(2, nor.len() - 1);
    nor[place] = nor[place - 1];
    Some(())
}

fn operand_added(r: &mut Random, frames: &mut Frames) -> Option<()> {
    let cell = any_cell(r, frames)?;
    nor_of(r, frames, 3)?.push(cell);
    Some(())
}

fn other_written(r: &mut Random, frames: &mut Frames) -> Option<()> {
    let cell = any_cell(r, frames)?;
    nor_of(r, frames, 3)?[1] = cell;
    Some(())
}

fn input_cell_set(r: &mut Random, frames: &mut Frames) -> Option<()> {
    let inputs = usize::from(head(frames, 0x11, 6)?[2]);
    let at = any_of(r, frames, 0x12)?;
    frames[at].insert(1, r.below(inputs) as u8);
    Some(())
}

fn set_cells_swapped(r: &mut Random, frames: &mut Frames) -> Option<()> {
    let at = any_of(r, frames, 0x12).filter(|at| frames[*at].len() > 2)?;
    frames[at].swap(1, 2);
    Some(())
}

/// The last cell of a line is the row size.
fn cell_past_row(r: &mut Random, frames: &mut Frames) -> Option<()> {
    let row = head(frames, 0x11, 6)?[1].wrapping_add(1);
    let kind = r.pick(&[0x12, 0x13, 0x14])?;
    let at = any_of(r, frames, kind)?;
    *frames[at].last_mut()? = row;
    Some(())
}

fn other_place(r: &mut Random, frames: &mut Frames) -> Option<()> {
    let cell = any_cell(r, frames)?;
    let at = any_of(r, frames, 0x14)?;
    *frames[at].last_mut()? = cell;
    Some(())
}

/// Any NOR's frame, where it has at least so many bytes.
fn nor_of<'a>(r: &mut Random, frames: &'a mut Frames, length: usize) -> Option<&'a mut Vec<u8>> {
    let at = any_of(r, frames, 0x13)?;
    Some(&mut frames[at]).filter(|nor| nor.len() >= length)
}

/// A cell of the row.
fn any_cell(r: &mut Random, frames: &mut Frames) -> Option<u8> {
    let row = usize::from(head(frames, 0x11, 6)?[1]) + 1;
    Some(r.below(row) as u8)
}
