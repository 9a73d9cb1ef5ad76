//! Order: the gates' signals in the order in which they are executed.

use crate::netlist::Netlist;
use crate::weights::weights;

/// Visits the roots, lowest number first.
pub fn order(netlist: &Netlist) -> Vec<u16> {
    let mut visits = Visits {
        netlist,
        weights: weights(netlist),
        executed: vec![false; netlist.gates.len()],
        order: Vec::with_capacity(netlist.gates.len()),
    };
    for (place, readers) in netlist.readers().into_iter().enumerate() {
        if readers == 0 {
            visits.visit(place);
        }
    }
    visits.order
}

struct Visits<'a> {
    netlist: &'a Netlist,
    weights: Vec<u16>,
    executed: Vec<bool>,
    order: Vec<u16>,
}

impl Visits<'_> {
    /// Operands from high weight to low, equal weights lower number first; then the gate.
    fn visit(&mut self, place: usize) {
        if self.executed[place] {
            return;
        }
        let netlist = self.netlist;
        let mut below = [0; 4];
        let mut count = 0;
        for operand in netlist.gates[place]
            .operands()
            .iter()
            .filter_map(|s| netlist.gate_place(*s))
        {
            below[count] = operand;
            count += 1;
        }
        let below = &mut below[..count];
        // The sort is stable and operands ascend, so equal weights stay in number order.
        below.sort_by(|a, b| self.weights[*b].cmp(&self.weights[*a]));
        for operand in below {
            self.visit(*operand);
        }
        self.executed[place] = true;
        self.order.push(netlist.signal(place));
    }
}
