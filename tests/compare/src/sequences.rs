//! Sequences for a netlist, whole or damaged.

use second::generate::{damaged, sequence_for, Random};
use second::Netlist;

/// A sequence's text, damaged as often as not.
pub fn any(r: &mut Random, netlist: &Netlist) -> Vec<u8> {
    let text = sequence_for(r, netlist);
    match r.once_in(2) {
        true => damaged(r, &text),
        false => text,
    }
}
