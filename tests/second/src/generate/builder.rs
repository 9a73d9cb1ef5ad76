//! A builder of NOR netlists that shares equal gates and drops unread ones.

use std::collections::HashMap;

use crate::{Gate, Netlist};

/// What a circuit's wire carries: a constant or a signal of the builder.
#[derive(Clone, Copy, Debug, PartialEq, Eq, PartialOrd, Ord)]
pub enum Wire {
    Low,
    High,
    Signal(u16),
}

pub struct Builder {
    inputs: usize,
    gates: Vec<Gate>,
    known: HashMap<Gate, u16>,
}

impl Builder {
    pub fn new(inputs: usize) -> Builder {
        Builder {
            inputs,
            gates: Vec::new(),
            known: HashMap::new(),
        }
    }

    pub fn input(&self, number: usize) -> Wire {
        Wire::Signal(number as u16)
    }

    /// So many inputs, from the first on.
    pub fn inputs(&self, first: usize, count: usize) -> Vec<Wire> {
        (first..first + count)
            .map(|number| self.input(number))
            .collect()
    }

    /// NOR of any number of wires; constants and pairs of opposites are worked out here.
    pub fn nor(&mut self, wires: &[Wire]) -> Wire {
        let mut signals = Vec::new();
        for wire in wires {
            match wire {
                Wire::High => return Wire::Low,
                Wire::Low => {}
                Wire::Signal(signal) => signals.push(*signal),
            }
        }
        signals.sort_unstable();
        signals.dedup();
        if signals
            .iter()
            .any(|s| self.opposite(*s).is_some_and(|o| signals.contains(&o)))
        {
            return Wire::Low;
        }
        while signals.len() > 4 {
            let four: Vec<u16> = signals.drain(..4).collect();
            let none = self.gate(&four);
            signals.push(self.gate(&[none]));
            signals.sort_unstable();
            signals.dedup();
        }
        match signals[..] {
            [] => Wire::High,
            [one] => Wire::Signal(self.opposite(one).unwrap_or_else(|| self.gate(&[one]))),
            _ => Wire::Signal(self.gate(&signals)),
        }
    }

    pub fn not(&mut self, wire: Wire) -> Wire {
        self.nor(&[wire])
    }

    pub fn or(&mut self, wires: &[Wire]) -> Wire {
        let none = self.nor(wires);
        self.not(none)
    }

    pub fn and(&mut self, wires: &[Wire]) -> Wire {
        let opposites: Vec<Wire> = wires.iter().map(|wire| self.not(*wire)).collect();
        self.nor(&opposites)
    }

    /// 1 where both are equal.
    pub fn equal(&mut self, a: Wire, b: Wire) -> Wire {
        let none = self.nor(&[a, b]);
        let only_b = self.nor(&[a, none]);
        let only_a = self.nor(&[b, none]);
        self.nor(&[only_b, only_a])
    }

    /// Sum and carry of three bits, in nine gates.
    pub fn add(&mut self, a: Wire, b: Wire, c: Wire) -> (Wire, Wire) {
        let none = self.nor(&[a, b]);
        let same = self.equal(a, b);
        let sum = self.equal(same, c);
        let differ_only = self.nor(&[same, c]);
        (sum, self.nor(&[none, differ_only]))
    }

    /// The bits of a sum; the column of a wire says its weight as a power of two.
    pub fn sum(&mut self, mut columns: Vec<Vec<Wire>>) -> Vec<Wire> {
        let mut bits = Vec::new();
        let mut at = 0;
        while at < columns.len() {
            while columns[at].len() > 1 {
                let mut next = || columns[at].pop().unwrap_or(Wire::Low);
                let (a, b, c) = (next(), next(), next());
                let (sum, carry) = self.add(a, b, c);
                // The oldest wires are added first, so that the adders make a tree.
                columns[at].insert(0, sum);
                if at + 1 == columns.len() {
                    columns.push(Vec::new());
                }
                columns[at + 1].insert(0, carry);
            }
            bits.push(columns[at].pop().unwrap_or(Wire::Low));
            at += 1;
        }
        bits
    }

    /// The netlist of these outputs, with every gate that they don't need left out.
    pub fn finish(mut self, outputs: &[Wire]) -> Netlist {
        let mut named = Vec::new();
        for wire in outputs {
            let signal = self.output(*wire, &named);
            named.push(signal);
        }
        let mut needed = vec![false; self.inputs + self.gates.len()];
        named
            .iter()
            .for_each(|signal| needed[usize::from(*signal)] = true);
        for (place, gate) in self.gates.iter().enumerate().rev() {
            if needed[self.inputs + place] {
                gate.operands()
                    .iter()
                    .for_each(|signal| needed[usize::from(*signal)] = true);
            }
        }
        self.renumbered(&needed, &named)
    }

    fn renumbered(&self, needed: &[bool], outputs: &[u16]) -> Netlist {
        let mut number: Vec<u16> = (0..self.inputs as u16).collect();
        let mut gates = Vec::new();
        for (place, gate) in self.gates.iter().enumerate() {
            number.push((self.inputs + gates.len()) as u16);
            if needed[self.inputs + place] {
                let operands = gate.operands().iter().map(|s| number[usize::from(*s)]);
                gates.push(Gate::new(&operands.collect::<Vec<u16>>()));
            }
        }
        let outputs = outputs.iter().map(|s| number[usize::from(*s)]).collect();
        Netlist {
            inputs: self.inputs,
            gates,
            outputs,
        }
    }

    /// A gate of its own for an output: constants, inputs and repeated outputs get one.
    fn output(&mut self, wire: Wire, taken: &[u16]) -> u16 {
        let mut signal = match wire {
            Wire::Signal(signal) => signal,
            constant => {
                let opposite = self.gate(&[0]);
                let low = self.gate(&[0, opposite]);
                match constant {
                    Wire::High => self.gate(&[low]),
                    _ => low,
                }
            }
        };
        while usize::from(signal) < self.inputs || taken.contains(&signal) {
            let not = self.gate(&[signal]);
            signal = self.gate(&[not]);
        }
        signal
    }

    /// The gate over exactly these signals, an old one where there is one.
    fn gate(&mut self, signals: &[u16]) -> u16 {
        let gate = Gate::new(signals);
        let new = (self.inputs + self.gates.len()) as u16;
        let signal = *self.known.entry(gate).or_insert(new);
        if signal == new {
            self.gates.push(gate);
        }
        signal
    }

    /// The signal whose NOT this one is.
    fn opposite(&self, signal: u16) -> Option<u16> {
        let place = usize::from(signal).checked_sub(self.inputs)?;
        match self.gates[place].operands() {
            [one] => Some(*one),
            _ => None,
        }
    }
}
