//! Weights (000's CU): how many cells a gate's cone wants.

use crate::netlist::Netlist;

/// The weight of each gate, in gate order.
pub fn weights(netlist: &Netlist) -> Vec<u16> {
    let mut weights = Vec::with_capacity(netlist.gates.len());
    for gate in &netlist.gates {
        let mut below = [0; 4];
        let mut count = 0;
        for place in gate
            .operands()
            .iter()
            .filter_map(|s| netlist.gate_place(*s))
        {
            below[count] = weights[place];
            count += 1;
        }
        let below = &mut below[..count];
        below.sort_unstable_by(|a, b| b.cmp(a));
        let largest = below
            .iter()
            .zip(0..)
            .map(|(weight, added)| weight + added)
            .max();
        // Without a gate among the operands there is no sum, and the weight is 1.
        weights.push(largest.unwrap_or(1));
    }
    weights
}
