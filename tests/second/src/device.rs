//! The device: one row, one instruction a cycle.

use crate::refusal;
use crate::sequence::{read_sequence, Instruction};

/// Runs one instruction on a row.
pub fn step(row: &mut [u8], instruction: &Instruction) {
    match instruction {
        Instruction::Set(cells) => {
            for cell in cells {
                row[usize::from(*cell)] = 1;
            }
        }
        Instruction::Nor(nor) => {
            let low = nor
                .operands()
                .iter()
                .all(|cell| row[usize::from(*cell)] == 0);
            // A NOR can only take a 1 away: a cell that held 0 stays 0.
            if !low {
                row[usize::from(nor.written)] = 0;
            }
        }
    }
}

/// Runs a sequence's text on a row; answers the cycles run.
pub fn simulate(text: &[u8], row: &mut [u8], budget: u64) -> Result<usize, u8> {
    let sequence = read_sequence(text)?;
    if row.len() != sequence.row || row.iter().any(|byte| *byte > 1) {
        return Err(refusal::BAD_SLICE);
    }
    let count = sequence.instructions.len();
    let cycles = usize::try_from(budget).map_or(count, |budget| budget.min(count));
    for instruction in &sequence.instructions[..cycles] {
        step(row, instruction);
    }
    Ok(cycles)
}
