//! Random well-formed netlists, in several shapes.

use std::collections::HashSet;

use super::Random;
use crate::{Gate, Netlist};

/// One function a shape: at most so many gates.
pub type Shape = fn(&mut Random, usize) -> Netlist;

pub const SHAPES: [Shape; 7] = [
    chain,
    tree,
    sharing,
    read_outputs,
    wide,
    many_outputs,
    mixture,
];

/// A well-formed netlist of any shape, with at most so many gates.
pub fn netlist(r: &mut Random, most_gates: usize) -> Netlist {
    let shape = SHAPES[r.below(SHAPES.len())];
    shape(r, most_gates)
}

/// Each gate reads the one before it, and perhaps inputs.
pub fn chain(r: &mut Random, most_gates: usize) -> Netlist {
    let inputs = r.between(1, 8);
    grown(r, inputs, most_gates, 1, link)
}

/// Leaves over inputs, joined until few gates are unread.
pub fn tree(r: &mut Random, most_gates: usize) -> Netlist {
    let inputs = r.between(2, 40);
    let roots = r.between(1, 4);
    grown(r, inputs, most_gates, roots, branch)
}

/// A few gates that very many others read.
pub fn sharing(r: &mut Random, most_gates: usize) -> Netlist {
    let inputs = r.between(1, 12);
    let roots = r.between(1, 64);
    grown(r, inputs, most_gates, roots, popular)
}

/// Outputs that other gates read.
pub fn read_outputs(r: &mut Random, most_gates: usize) -> Netlist {
    let inputs = r.between(1, 20);
    let netlist = grown(r, inputs, most_gates, 6, any);
    with_outputs(r, netlist, 64)
}

/// All 64 inputs.
pub fn wide(r: &mut Random, most_gates: usize) -> Netlist {
    let roots = r.between(1, 64);
    grown(r, 64, most_gates, roots, branch)
}

/// 64 outputs, where there are that many gates.
pub fn many_outputs(r: &mut Random, most_gates: usize) -> Netlist {
    let inputs = r.between(1, 64);
    let netlist = grown(r, inputs, most_gates, 64, any);
    with_outputs(r, netlist, 64)
}

/// Each gate after another shape; some outputs are read too.
pub fn mixture(r: &mut Random, most_gates: usize) -> Netlist {
    let inputs = r.between(1, 64);
    let roots = r.between(1, 64);
    let netlist = grown(r, inputs, most_gates, roots, |r, growing| {
        let style = [link, branch, popular, any][r.below(4)];
        style(r, growing)
    });
    let outputs = r.between(1, 64);
    with_outputs(r, netlist, outputs)
}

/// A netlist that grows gate by gate, without a twin.
struct Growing {
    inputs: usize,
    gates: Vec<Gate>,
    lists: HashSet<Gate>,
    unread: Vec<u16>,
}

impl Growing {
    fn signals(&self) -> usize {
        self.inputs + self.gates.len()
    }

    fn newest(&self) -> u16 {
        (self.signals() - 1) as u16
    }

    /// Adds a gate over 1 to 4 of these signals; NOT of the newest where it would be a twin.
    fn add(&mut self, mut operands: Vec<u16>) {
        operands.truncate(4);
        operands.sort_unstable();
        operands.dedup();
        let mut gate = Gate::new(&operands);
        if operands.is_empty() || self.lists.contains(&gate) {
            gate = Gate::new(&[self.newest()]);
        }
        self.unread
            .retain(|signal| !gate.operands().contains(signal));
        self.unread.push(self.signals() as u16);
        self.lists.insert(gate);
        self.gates.push(gate);
    }
}

/// Grows a netlist in which at most `roots` gates are unread at the end; those are its outputs.
fn grown(
    r: &mut Random,
    inputs: usize,
    most_gates: usize,
    roots: usize,
    style: impl Fn(&mut Random, &Growing) -> Vec<u16>,
) -> Netlist {
    let mut growing = Growing {
        inputs,
        gates: Vec::new(),
        lists: HashSet::new(),
        unread: Vec::new(),
    };
    for left in (0..size(r, most_gates)).rev() {
        // A gate that reads four unread gates leaves three fewer; beyond this it would be too late.
        if growing.unread.len() + 1 > roots + 3 * left {
            r.shuffle(&mut growing.unread);
            growing.add(growing.unread.clone());
        } else {
            growing.add(style(r, &growing));
        }
    }
    let mut outputs = growing.unread;
    r.shuffle(&mut outputs);
    Netlist {
        inputs,
        gates: growing.gates,
        outputs,
    }
}

/// Often small, sometimes the most.
fn size(r: &mut Random, most_gates: usize) -> usize {
    let most = most_gates.clamp(1, 512);
    match r.below(8) {
        0 => most,
        1 | 2 => r.between(1, most.min(8)),
        _ => r.between(1, most),
    }
}

/// More outputs, out of the gates that are read, up to so many in all.
fn with_outputs(r: &mut Random, mut netlist: Netlist, most: usize) -> Netlist {
    let mut others: Vec<u16> = (0..netlist.gates.len())
        .map(|place| netlist.signal(place))
        .filter(|signal| !netlist.outputs.contains(signal))
        .collect();
    r.shuffle(&mut others);
    others.truncate(most.saturating_sub(netlist.outputs.len()));
    netlist.outputs.extend(others);
    r.shuffle(&mut netlist.outputs);
    netlist
}

fn link(r: &mut Random, growing: &Growing) -> Vec<u16> {
    let mut operands = vec![growing.newest()];
    for _ in 0..r.below(3) {
        operands.push(r.below(growing.inputs) as u16);
    }
    operands
}

fn branch(r: &mut Random, growing: &Growing) -> Vec<u16> {
    let count = r.between(1, 4);
    let leaf = growing.unread.len() < 2 || r.once_in(2);
    (0..count)
        .filter_map(|_| match leaf {
            true => Some(r.below(growing.inputs) as u16),
            false => r.pick(&growing.unread),
        })
        .collect()
}

fn popular(r: &mut Random, growing: &Growing) -> Vec<u16> {
    let signals = growing.signals();
    let early = r.between(1, growing.inputs + 6).min(signals);
    let late = signals.saturating_sub(r.between(1, 12));
    let mut operands = vec![r.below(early) as u16, r.between(late, signals - 1) as u16];
    for _ in 0..r.below(3) {
        operands.push(r.below(signals) as u16);
    }
    operands
}

fn any(r: &mut Random, growing: &Growing) -> Vec<u16> {
    let count = r.between(1, 4);
    (0..count)
        .map(|_| r.below(growing.signals()) as u16)
        .collect()
}
