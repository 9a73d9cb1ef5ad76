//! Netlists: the reader, its tail, and what is asked after the last line.

use std::collections::HashSet;

use crate::lines::{push_line, Lines};
use crate::refusal;

/// A gate's operand signals, 1 to 4 of them.
#[derive(Clone, Copy, Debug, PartialEq, Eq, Hash, PartialOrd, Ord)]
pub struct Gate {
    count: u8,
    signals: [u16; 4],
}

impl Gate {
    /// A gate over these operands; those past the fourth are left out.
    pub fn new(operands: &[u16]) -> Gate {
        let count = operands.len().min(4);
        let mut signals = [0; 4];
        signals[..count].copy_from_slice(&operands[..count]);
        Gate {
            count: count as u8,
            signals,
        }
    }

    pub fn operands(&self) -> &[u16] {
        &self.signals[..usize::from(self.count)]
    }
}

/// Inputs are signals 0 up; the next signals are the gates, in line order.
#[derive(Clone, Debug, PartialEq, Eq)]
pub struct Netlist {
    pub inputs: usize,
    pub gates: Vec<Gate>,
    pub outputs: Vec<u16>,
}

impl Netlist {
    /// The place of a signal among the gates; none for an input.
    pub fn gate_place(&self, signal: u16) -> Option<usize> {
        usize::from(signal).checked_sub(self.inputs)
    }

    /// The signal of the gate at a place among the gates.
    pub fn signal(&self, place: usize) -> u16 {
        (self.inputs + place) as u16
    }

    /// How many gates read each gate.
    pub fn readers(&self) -> Vec<u16> {
        let mut readers = vec![0; self.gates.len()];
        for gate in &self.gates {
            for place in gate.operands().iter().filter_map(|s| self.gate_place(*s)) {
                readers[place] += 1;
            }
        }
        readers
    }

    /// Which gates are outputs.
    pub fn output_marks(&self) -> Vec<bool> {
        let mut marks = vec![false; self.gates.len()];
        for place in self.outputs.iter().filter_map(|s| self.gate_place(*s)) {
            marks[place] = true;
        }
        marks
    }

    /// What is asked after the last line: 6, then 7.
    pub fn judged(self) -> Result<Netlist, u8> {
        let marks = self.output_marks();
        if self
            .readers()
            .iter()
            .zip(&marks)
            .any(|(readers, output)| *readers == 0 && !output)
        {
            return Err(refusal::UNREAD);
        }
        let mut lists = HashSet::with_capacity(self.gates.len());
        let twin_gates = !self.gates.iter().all(|gate| lists.insert(gate));
        let distinct = marks.iter().filter(|output| **output).count();
        if twin_gates || distinct != self.outputs.len() {
            return Err(refusal::TWIN);
        }
        Ok(self)
    }

    /// The netlist's text.
    pub fn text(&self) -> Vec<u8> {
        let mut text = Vec::new();
        let gates = (self.gates.len() as u16).to_be_bytes();
        push_line(
            &mut text,
            &[
                0x01,
                self.inputs as u8,
                gates[0],
                gates[1],
                self.outputs.len() as u8,
            ],
        );
        for gate in &self.gates {
            let mut frame = vec![0x02];
            frame.extend(gate.operands().iter().flat_map(|s| s.to_be_bytes()));
            push_line(&mut text, &frame);
        }
        for output in &self.outputs {
            let [high, low] = output.to_be_bytes();
            push_line(&mut text, &[0x03, high, low]);
        }
        text
    }
}

/// The library's own entry: the lines, then nothing after them, then 6 and 7.
pub fn read(text: &[u8]) -> Result<Netlist, u8> {
    let mut lines = Lines::new(text);
    let netlist = read_lines(&mut lines)?;
    lines.end()?;
    netlist.judged()
}

/// Reads the lines alone, 1 to 5, and answers where the tail starts.
pub(crate) fn read_part(text: &[u8]) -> Result<(Netlist, usize), u8> {
    let mut lines = Lines::new(text);
    let netlist = read_lines(&mut lines)?;
    Ok((netlist, lines.place()))
}

/// Where the part that follows the last output line starts; the text's end on 1 to 5.
pub fn tail(text: &[u8]) -> usize {
    read_part(text).map_or(text.len(), |(_, place)| place)
}

fn read_lines(lines: &mut Lines) -> Result<Netlist, u8> {
    let (inputs, gates, outputs) = head(lines.due()?)?;
    let mut netlist = Netlist {
        inputs,
        gates: Vec::with_capacity(gates),
        outputs: Vec::with_capacity(outputs),
    };
    for own in inputs..inputs + gates {
        netlist.gates.push(gate(lines.due()?, own as u16)?);
    }
    for _ in 0..outputs {
        netlist.outputs.push(output(lines.due()?, inputs, gates)?);
    }
    Ok(netlist)
}

/// A head's inputs, gates and outputs.
fn head(frame: &[u8]) -> Result<(usize, usize, usize), u8> {
    let &[0x01, inputs, high, low, outputs] = frame else {
        return Err(refusal::FRAME);
    };
    let gates = u16::from_be_bytes([high, low]);
    let good =
        (1..=64).contains(&inputs) && (1..=512).contains(&gates) && (1..=64).contains(&outputs);
    if !good {
        return Err(refusal::NUMBER);
    }
    Ok((
        usize::from(inputs),
        usize::from(gates),
        usize::from(outputs),
    ))
}

fn gate(frame: &[u8], own: u16) -> Result<Gate, u8> {
    let [0x02, rest @ ..] = frame else {
        return Err(refusal::FRAME);
    };
    if !matches!(rest.len(), 2 | 4 | 6 | 8) {
        return Err(refusal::FRAME);
    }
    let mut signals = [0; 4];
    for (signal, pair) in signals.iter_mut().zip(rest.chunks_exact(2)) {
        *signal = u16::from_be_bytes([pair[0], pair[1]]);
    }
    let operands = &signals[..rest.len() / 2];
    if operands.iter().any(|signal| *signal >= own) {
        return Err(refusal::NOT_LOWER);
    }
    if operands.windows(2).any(|pair| pair[0] >= pair[1]) {
        return Err(refusal::NOT_ASCENDING);
    }
    Ok(Gate::new(operands))
}

fn output(frame: &[u8], inputs: usize, gates: usize) -> Result<u16, u8> {
    let &[0x03, high, low] = frame else {
        return Err(refusal::FRAME);
    };
    let signal = u16::from_be_bytes([high, low]);
    if !(inputs..inputs + gates).contains(&usize::from(signal)) {
        return Err(refusal::NOT_LOWER);
    }
    Ok(signal)
}
