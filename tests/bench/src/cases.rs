//! What the calls are timed on.

use second::generate::{least_row, text_of, Random, SHAPES};
use second::{Gate, Netlist};

/// A netlist, its sequence in a row of some cells more than it needs, and what is lent.
pub struct Case {
    pub netlist: Vec<u8>,
    pub sequence: Vec<u8>,
    pub row: u64,
    pub cells: Vec<u8>,
    pub inputs: Vec<u8>,
    pub out: Vec<u8>,
}

/// One case of each shape of netlist with so many gates.
pub fn cases(gates: usize) -> Vec<Case> {
    let r = &mut Random::new(gates as u64);
    let netlists = SHAPES.iter().map(|shape| {
        let mut tries = (0..10_000).map(|_| shape(r, gates));
        let full = |netlist: &Netlist| netlist.gates.len() == gates;
        tries.find(full).unwrap_or_else(|| shape(r, gates))
    });
    netlists.map(|netlist| case(&netlist)).collect()
}

/// 512 gates, each of which reads the one before: the deepest netlist there is.
pub fn deepest_chain() -> Case {
    let gates = (0..512).map(|signal| Gate::new(&[signal]));
    case(&Netlist {
        inputs: 1,
        gates: gates.collect(),
        outputs: vec![512],
    })
}

fn case(netlist: &Netlist) -> Case {
    let text = text_of(netlist);
    let row = (least_row(&text).unwrap_or(256) + 8).min(256);
    let sequence = second::mapped(netlist, row as usize).map_or(Vec::new(), |mapped| mapped.text());
    Case {
        netlist: text,
        sequence,
        row,
        cells: vec![0; row as usize],
        inputs: vec![1; netlist.inputs],
        out: vec![0; second::HELD],
    }
}
