//! Pairs of a netlist and a sequence: check, and a run of every pair that it passes.

use crate::given::{hold, Given, Held};
use crate::tally::Tally;
use crate::{bits, calls, laws, sequences};
use second::generate::{damaged, netlist, sequence_for, text_of, Random};

pub fn once(r: &mut Random, tally: &mut Tally) -> Held {
    let given = made(r);
    hold(tally, "check", calls::check, &given)?;
    hold(tally, "defended", laws::defended, &given)
}

/// A pair, most of them small, and a row.
pub fn made(r: &mut Random) -> Given {
    let most = if r.once_in(60) { 512 } else { 24 };
    pair(r, most)
}

/// A netlist of at most so many gates and a sequence, good, damaged or another's, and a row.
pub fn pair(r: &mut Random, most_gates: usize) -> Given {
    let first = netlist(r, most_gates);
    let mut text = text_of(&first);
    let mut sequence = sequences::any(r, &first);
    if r.once_in(6) {
        text = damaged(r, &text);
    }
    if r.once_in(8) {
        let other = netlist(r, 12);
        sequence = sequence_for(r, &other);
    }
    Given {
        texts: vec![text, sequence],
        bytes: bits::row(r),
        ..Given::default()
    }
}
