//! The checker: follows a sequence with a book of what each cell holds.

use std::collections::HashMap;

use crate::netlist::{read, Gate, Netlist};
use crate::refusal;
use crate::sequence::{read_sequence, Instruction, Nor, Sequence};

/// Checks a sequence's text against a netlist's text; answers the instructions.
pub fn check(netlist: &[u8], sequence: &[u8]) -> Result<usize, u8> {
    check_read(&read(netlist)?, sequence)
}

/// Checks a sequence's text against a netlist that has been read.
pub(crate) fn check_read(netlist: &Netlist, sequence: &[u8]) -> Result<usize, u8> {
    checked(netlist, &read_sequence(sequence)?)
}

/// Checks a sequence that has been read against such a netlist.
pub fn checked(netlist: &Netlist, sequence: &Sequence) -> Result<usize, u8> {
    if sequence.inputs != netlist.inputs || sequence.places.len() != netlist.outputs.len() {
        return Err(refusal::HEADS_DISAGREE);
    }
    let mut book = Book::new(netlist, sequence.row);
    for instruction in &sequence.instructions {
        match instruction {
            Instruction::Set(cells) => book.set(cells)?,
            Instruction::Nor(nor) => book.nor(nor)?,
        }
    }
    let held =
        |(place, output): (&u8, &u16)| book.cells[usize::from(*place)] == Cell::Signal(*output);
    match sequence.places.iter().zip(&netlist.outputs).all(held) {
        true => Ok(sequence.instructions.len()),
        false => Err(refusal::WRONG_PLACE),
    }
}

#[derive(Clone, Copy, PartialEq, Eq)]
enum Cell {
    Signal(u16),
    Ready,
    Unknown,
}

struct Book {
    inputs: usize,
    cells: Vec<Cell>,
    gates: HashMap<Gate, u16>,
}

impl Book {
    /// At first input cells hold their signals and all others are unknown.
    fn new(netlist: &Netlist, row: usize) -> Book {
        let mut cells: Vec<Cell> = (0..netlist.inputs)
            .map(|cell| Cell::Signal(cell as u16))
            .collect();
        cells.resize(row, Cell::Unknown);
        let named = |(place, gate): (usize, &Gate)| (*gate, netlist.signal(place));
        let gates = netlist.gates.iter().enumerate().map(named).collect();
        Book {
            inputs: netlist.inputs,
            cells,
            gates,
        }
    }

    fn set(&mut self, cells: &[u8]) -> Result<(), u8> {
        if cells.iter().any(|cell| usize::from(*cell) < self.inputs) {
            return Err(refusal::INPUT_CELL);
        }
        for cell in cells {
            self.cells[usize::from(*cell)] = Cell::Ready;
        }
        Ok(())
    }

    fn nor(&mut self, nor: &Nor) -> Result<(), u8> {
        let written = usize::from(nor.written);
        if written < self.inputs {
            return Err(refusal::INPUT_CELL);
        }
        if self.cells[written] != Cell::Ready {
            return Err(refusal::NOT_READY);
        }
        let mut signals = [0; 4];
        for (signal, cell) in signals.iter_mut().zip(nor.operands()) {
            let Cell::Signal(held) = self.cells[usize::from(*cell)] else {
                return Err(refusal::NO_GATE);
            };
            *signal = held;
        }
        let operands = &mut signals[..nor.operands().len()];
        operands.sort_unstable();
        let gate = self
            .gates
            .get(&Gate::new(operands))
            .ok_or(refusal::NO_GATE)?;
        self.cells[written] = Cell::Signal(*gate);
        Ok(())
    }
}
