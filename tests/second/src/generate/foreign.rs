//! Sequences from another producer: good ones that our mapper would not write.

use super::Random;
use crate::{order, Instruction, Netlist, Nor, Sequence};

/// The most instructions that a sequence has.
const MOST_INSTRUCTIONS: usize = 1024;

/// A sequence that passes the checker; none where the row is too small for this producer.
pub fn foreign(r: &mut Random, netlist: &Netlist, row: usize) -> Option<Sequence> {
    if netlist.inputs >= row || row > 256 {
        return None;
    }
    let wild = execution(r, netlist);
    produced(r, netlist, row, &wild).or_else(|| produced(r, netlist, row, &order(netlist)))
}

/// Some order in which operands go before their readers.
fn execution(r: &mut Random, netlist: &Netlist) -> Vec<u16> {
    let mut left: Vec<u16> = (0..netlist.gates.len())
        .map(|place| netlist.signal(place))
        .collect();
    match r.below(3) {
        0 => left,
        1 => order(netlist),
        _ => {
            let mut done = vec![false; netlist.inputs + netlist.gates.len()];
            done[..netlist.inputs].fill(true);
            let mut wild = Vec::new();
            while !left.is_empty() {
                let at = r.below(left.len().min(8));
                let gate = netlist.gates[usize::from(left[at]) - netlist.inputs];
                // The lowest gate left can always go, so this ends.
                if gate
                    .operands()
                    .iter()
                    .all(|signal| done[usize::from(*signal)])
                {
                    done[usize::from(left[at])] = true;
                    wild.push(left.remove(at));
                }
            }
            wild
        }
    }
}

fn produced(r: &mut Random, netlist: &Netlist, row: usize, order: &[u16]) -> Option<Sequence> {
    let mut producer = Producer::new(netlist, row);
    for (done, signal) in order.iter().enumerate() {
        producer.spare = 2 * (order.len() - done);
        while producer.extra_fits() && r.once_in(3) {
            producer.extra(r, &order[..done]);
        }
        producer.execute(r, *signal)?;
        producer.executed(*signal);
    }
    producer.spare = 0;
    while producer.extra_fits() && r.once_in(2) {
        producer.extra(r, order);
    }
    let places = netlist
        .outputs
        .iter()
        .filter_map(|output| producer.cell_of(r, *output))
        .collect();
    Some(Sequence {
        row,
        inputs: netlist.inputs,
        instructions: producer.instructions,
        places,
    })
}

#[derive(Clone, Copy, PartialEq, Eq)]
enum Held {
    Signal(u16),
    Ready,
    Nothing,
}

struct Producer<'a> {
    netlist: &'a Netlist,
    held: Vec<Held>,
    /// The readers of each gate that are still to come; an output waits for ever.
    waiting: Vec<u16>,
    instructions: Vec<Instruction>,
    /// Instructions kept for the gates that are still to come.
    spare: usize,
}

impl<'a> Producer<'a> {
    fn new(netlist: &'a Netlist, row: usize) -> Self {
        let mut held: Vec<Held> = (0..netlist.inputs)
            .map(|input| Held::Signal(input as u16))
            .collect();
        held.resize(row, Held::Nothing);
        let mut waiting = netlist.readers();
        for (readers, output) in waiting.iter_mut().zip(netlist.output_marks()) {
            *readers += u16::from(output);
        }
        Producer {
            netlist,
            held,
            waiting,
            instructions: Vec::new(),
            spare: 0,
        }
    }

    fn extra_fits(&self) -> bool {
        self.instructions.len() + self.spare + 2 <= MOST_INSTRUCTIONS
    }

    /// An early set, or a gate worked out again.
    fn extra(&mut self, r: &mut Random, done: &[u16]) {
        let again = r
            .pick(done)
            .filter(|_| r.once_in(2) && self.held.contains(&Held::Ready));
        let again = again.filter(|signal| self.operands_held(*signal));
        if again.and_then(|signal| self.execute(r, signal)).is_none() {
            self.set(r);
        }
    }

    fn operands_held(&self, signal: u16) -> bool {
        let gate = self.netlist.gates[usize::from(signal) - self.netlist.inputs];
        gate.operands()
            .iter()
            .all(|operand| self.held.contains(&Held::Signal(*operand)))
    }

    /// Writes a gate into any ready cell, its operands in any order.
    fn execute(&mut self, r: &mut Random, signal: u16) -> Option<()> {
        if !self.held.contains(&Held::Ready) {
            self.set(r);
        }
        let written = self.cell_with(r, Held::Ready)?;
        let gate = self.netlist.gates[usize::from(signal) - self.netlist.inputs];
        let cells = gate
            .operands()
            .iter()
            .map(|operand| self.cell_of(r, *operand));
        let mut cells = cells.collect::<Option<Vec<u8>>>()?;
        r.shuffle(&mut cells);
        self.instructions
            .push(Instruction::Nor(Nor::new(written, &cells)));
        self.held[usize::from(written)] = Held::Signal(signal);
        Some(())
    }

    /// After a gate's first time its operands wait for one reader fewer.
    fn executed(&mut self, signal: u16) {
        let gate = self.netlist.gates[usize::from(signal) - self.netlist.inputs];
        for place in gate
            .operands()
            .iter()
            .filter_map(|s| self.netlist.gate_place(*s))
        {
            self.waiting[place] -= 1;
        }
    }

    /// Sets some of the cells that may be set, those that are ready again included.
    fn set(&mut self, r: &mut Random) {
        let mut cells: Vec<u8> = (self.netlist.inputs..self.held.len())
            .map(|cell| cell as u8)
            .collect();
        r.shuffle(&mut cells);
        let most = r.between(1, cells.len());
        let mut named = Vec::new();
        for cell in cells {
            if named.len() < most && self.free(cell) {
                self.held[usize::from(cell)] = Held::Ready;
                named.push(cell);
            }
        }
        named.sort_unstable();
        if !named.is_empty() {
            self.instructions.push(Instruction::Set(named));
        }
    }

    /// A cell may be set where nothing waits for what it holds, or another cell holds it too.
    fn free(&self, cell: u8) -> bool {
        let held = self.held[usize::from(cell)];
        let Held::Signal(signal) = held else {
            return true;
        };
        let waited = self
            .netlist
            .gate_place(signal)
            .is_none_or(|place| self.waiting[place] > 0);
        !waited || self.held.iter().filter(|other| **other == held).count() > 1
    }

    fn cell_of(&self, r: &mut Random, signal: u16) -> Option<u8> {
        self.cell_with(r, Held::Signal(signal))
    }

    /// Any cell that holds this.
    fn cell_with(&self, r: &mut Random, wanted: Held) -> Option<u8> {
        let cells = (0..self.held.len()).filter(|cell| self.held[*cell] == wanted);
        let cells: Vec<u8> = cells.map(|cell| cell as u8).collect();
        r.pick(&cells)
    }
}
