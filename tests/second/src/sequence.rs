//! Sequences: the reader and the writer.

use crate::lines::{push_line, Lines};
use crate::refusal;

/// A NOR's written cell and its 1 to 4 operand cells.
#[derive(Clone, Copy, Debug, PartialEq, Eq)]
pub struct Nor {
    pub written: u8,
    count: u8,
    cells: [u8; 4],
}

impl Nor {
    /// A NOR over these operand cells; those past the fourth are left out.
    pub fn new(written: u8, operands: &[u8]) -> Nor {
        let count = operands.len().min(4);
        let mut cells = [0; 4];
        cells[..count].copy_from_slice(&operands[..count]);
        Nor {
            written,
            count: count as u8,
            cells,
        }
    }

    pub fn operands(&self) -> &[u8] {
        &self.cells[..usize::from(self.count)]
    }
}

#[derive(Clone, Debug, PartialEq, Eq)]
pub enum Instruction {
    Set(Vec<u8>),
    Nor(Nor),
}

#[derive(Clone, Debug, PartialEq, Eq)]
pub struct Sequence {
    pub row: usize,
    pub inputs: usize,
    pub instructions: Vec<Instruction>,
    pub places: Vec<u8>,
}

impl Sequence {
    /// Which cells it sets or writes.
    pub fn named(&self) -> Vec<bool> {
        let mut named = vec![false; self.row];
        for instruction in &self.instructions {
            let cells = match instruction {
                Instruction::Set(cells) => cells,
                Instruction::Nor(nor) => std::slice::from_ref(&nor.written),
            };
            cells
                .iter()
                .for_each(|cell| named[usize::from(*cell)] = true);
        }
        named
    }

    /// The sequence's text; the head's numbers are those of the lists.
    pub fn text(&self) -> Vec<u8> {
        let mut text = Vec::new();
        let [high, low] = (self.instructions.len() as u16).to_be_bytes();
        let row = self.row.wrapping_sub(1) as u8;
        push_line(
            &mut text,
            &[
                0x11,
                row,
                self.inputs as u8,
                self.places.len() as u8,
                high,
                low,
            ],
        );
        let mut frame = Vec::new();
        for instruction in &self.instructions {
            frame.clear();
            match instruction {
                Instruction::Set(cells) => {
                    frame.push(0x12);
                    frame.extend(cells);
                }
                Instruction::Nor(nor) => {
                    frame.extend([0x13, nor.written]);
                    frame.extend(nor.operands());
                }
            }
            push_line(&mut text, &frame);
        }
        for place in &self.places {
            push_line(&mut text, &[0x14, *place]);
        }
        text
    }
}

/// Reads a sequence's whole text; nothing follows it.
pub fn read_sequence(text: &[u8]) -> Result<Sequence, u8> {
    let mut lines = Lines::new(text);
    let head = head(lines.due()?)?;
    let mut instructions = Vec::with_capacity(head.instructions);
    for _ in 0..head.instructions {
        instructions.push(instruction(lines.due()?, head.row)?);
    }
    let mut places = Vec::with_capacity(head.outputs);
    for _ in 0..head.outputs {
        places.push(place(lines.due()?, head.row)?);
    }
    lines.end()?;
    Ok(Sequence {
        row: head.row,
        inputs: head.inputs,
        instructions,
        places,
    })
}

struct Head {
    row: usize,
    inputs: usize,
    outputs: usize,
    instructions: usize,
}

fn head(frame: &[u8]) -> Result<Head, u8> {
    let &[0x11, row, inputs, outputs, high, low] = frame else {
        return Err(refusal::FRAME);
    };
    let head = Head {
        row: usize::from(row) + 1,
        inputs: usize::from(inputs),
        outputs: usize::from(outputs),
        instructions: usize::from(u16::from_be_bytes([high, low])),
    };
    let good = head.row >= 2
        && (1..=64).contains(&head.inputs)
        && head.inputs < head.row
        && (1..=64).contains(&head.outputs)
        && (1..=1024).contains(&head.instructions);
    if !good {
        return Err(refusal::NUMBER);
    }
    Ok(head)
}

fn instruction(frame: &[u8], row: usize) -> Result<Instruction, u8> {
    match frame {
        [0x12, cells @ ..] => set(cells, row),
        [0x13, written, operands @ ..] => nor(*written, operands, row),
        _ => Err(refusal::FRAME),
    }
}

fn set(cells: &[u8], row: usize) -> Result<Instruction, u8> {
    if cells.is_empty() {
        return Err(refusal::FRAME);
    }
    if cells.windows(2).any(|pair| pair[0] >= pair[1]) {
        return Err(refusal::NOT_ASCENDING);
    }
    below(cells, row)?;
    Ok(Instruction::Set(cells.to_vec()))
}

fn nor(written: u8, operands: &[u8], row: usize) -> Result<Instruction, u8> {
    if !(1..=4).contains(&operands.len()) {
        return Err(refusal::FRAME);
    }
    let twice = |at: usize| operands[at] == written || operands[..at].contains(&operands[at]);
    if (0..operands.len()).any(twice) {
        return Err(refusal::NOT_ASCENDING);
    }
    below(&[written], row)?;
    below(operands, row)?;
    Ok(Instruction::Nor(Nor::new(written, operands)))
}

fn place(frame: &[u8], row: usize) -> Result<u8, u8> {
    let &[0x14, cell] = frame else {
        return Err(refusal::FRAME);
    };
    below(&[cell], row)?;
    Ok(cell)
}

/// Every cell named is below the row size.
fn below(cells: &[u8], row: usize) -> Result<(), u8> {
    match cells.iter().all(|cell| usize::from(*cell) < row) {
        true => Ok(()),
        false => Err(refusal::PAST_ROW),
    }
}
