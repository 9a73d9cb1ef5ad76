//! Cells: which cell each gate takes, and when spent cells are set again.

use crate::netlist::Netlist;
use crate::order::order;
use crate::refusal;
use crate::sequence::{Instruction, Nor, Sequence};

/// Maps a netlist in a row of a good size; 9 where the row has no room.
pub fn mapped(netlist: &Netlist, row: usize) -> Result<Sequence, u8> {
    if netlist.inputs >= row {
        return Err(refusal::NO_ROOM);
    }
    let mut mapping = Mapping::new(netlist, row);
    for signal in order(netlist) {
        mapping.execute(usize::from(signal) - netlist.inputs)?;
    }
    let places = netlist
        .outputs
        .iter()
        .map(|signal| mapping.cell_of[usize::from(*signal)])
        .collect();
    Ok(Sequence {
        row,
        inputs: netlist.inputs,
        instructions: mapping.instructions,
        places,
    })
}

/// A set of cells, one bit a cell.
#[derive(Clone, Copy, Default)]
struct CellSet([u64; 4]);

impl CellSet {
    fn insert(&mut self, cell: u8) {
        self.0[usize::from(cell >> 6)] |= 1 << (cell & 63);
    }

    fn take_lowest(&mut self) -> Option<u8> {
        let word = self.0.iter().position(|word| *word != 0)?;
        let bit = self.0[word].trailing_zeros();
        self.0[word] &= self.0[word] - 1;
        Some(word as u8 * 64 + bit as u8)
    }

    fn ascending(mut self) -> Vec<u8> {
        std::iter::from_fn(move || self.take_lowest()).collect()
    }
}

struct Mapping<'a> {
    netlist: &'a Netlist,
    ready: CellSet,
    spent: CellSet,
    /// The cell of each signal; a gate's is good once it has been executed.
    cell_of: Vec<u8>,
    /// The readers of each gate that have not been executed.
    waiting: Vec<u16>,
    output: Vec<bool>,
    instructions: Vec<Instruction>,
}

impl<'a> Mapping<'a> {
    /// Opens by setting all work cells.
    fn new(netlist: &'a Netlist, row: usize) -> Self {
        let work: Vec<u8> = (netlist.inputs..row).map(|cell| cell as u8).collect();
        let mut ready = CellSet::default();
        work.iter().for_each(|cell| ready.insert(*cell));
        let mut cell_of: Vec<u8> = (0..netlist.inputs).map(|cell| cell as u8).collect();
        cell_of.resize(netlist.inputs + netlist.gates.len(), 0);
        Mapping {
            netlist,
            ready,
            spent: CellSet::default(),
            cell_of,
            waiting: netlist.readers(),
            output: netlist.output_marks(),
            instructions: vec![Instruction::Set(work)],
        }
    }

    fn execute(&mut self, place: usize) -> Result<(), u8> {
        let written = self.take_ready()?;
        let operands = self.netlist.gates[place].operands();
        let mut cells = [0; 4];
        for (cell, signal) in cells.iter_mut().zip(operands) {
            *cell = self.cell_of[usize::from(*signal)];
        }
        let nor = Nor::new(written, &cells[..operands.len()]);
        self.instructions.push(Instruction::Nor(nor));
        self.cell_of[self.netlist.inputs + place] = written;
        self.release(operands);
        Ok(())
    }

    /// The lowest ready cell; with none ready, all spent cells are set first.
    fn take_ready(&mut self) -> Result<u8, u8> {
        if let Some(cell) = self.ready.take_lowest() {
            return Ok(cell);
        }
        let spent = std::mem::take(&mut self.spent);
        self.ready = spent;
        let cell = self.ready.take_lowest().ok_or(refusal::NO_ROOM)?;
        self.instructions.push(Instruction::Set(spent.ascending()));
        Ok(cell)
    }

    /// Each gate operand that is no output and whose readers are all executed is spent.
    fn release(&mut self, operands: &[u16]) {
        for signal in operands {
            let Some(place) = self.netlist.gate_place(*signal) else {
                continue;
            };
            self.waiting[place] -= 1;
            if self.waiting[place] == 0 && !self.output[place] {
                self.spent.insert(self.cell_of[usize::from(*signal)]);
            }
        }
    }
}
