//! Values: a gate is 1 when all its operands are 0, else 0.

use crate::netlist::{read, Netlist};
use crate::refusal;

/// The values of all signals, inputs first.
pub fn values(netlist: &Netlist, inputs: &[u8]) -> Vec<u8> {
    let mut values = Vec::with_capacity(netlist.inputs + netlist.gates.len());
    values.extend_from_slice(inputs);
    for gate in &netlist.gates {
        let low = gate
            .operands()
            .iter()
            .all(|signal| values[usize::from(*signal)] == 0);
        values.push(u8::from(low));
    }
    values
}

/// Evaluates a netlist's text; the outputs fill the first bytes of the buffer.
pub fn evaluate(text: &[u8], inputs: &[u8], out: &mut [u8]) -> Result<usize, u8> {
    let netlist = read(text)?;
    if inputs.len() != netlist.inputs || inputs.iter().any(|byte| *byte > 1) {
        return Err(refusal::BAD_SLICE);
    }
    let count = netlist.outputs.len();
    let place = out.get_mut(..count).ok_or(refusal::SHORT_BUFFER)?;
    let values = values(&netlist, inputs);
    for (byte, signal) in place.iter_mut().zip(&netlist.outputs) {
        *byte = values[usize::from(*signal)];
    }
    Ok(count)
}
