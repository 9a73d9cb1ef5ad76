//! Sequences for a netlist, from either producer.

use super::{foreign, Random};
use crate::{mapped, Netlist};

/// A sequence's text for a netlist, from the mapper or from another producer.
pub fn sequence_for(r: &mut Random, netlist: &Netlist) -> Vec<u8> {
    let row = r.between(netlist.inputs + 1, 256);
    let ours = || mapped(netlist, row).or_else(|_| mapped(netlist, 256)).ok();
    let sequence = match r.once_in(2) {
        true => ours(),
        false => foreign(r, netlist, row).or_else(ours),
    };
    sequence.map_or(Vec::new(), |sequence| sequence.text())
}
