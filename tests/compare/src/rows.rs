//! Rows: simulate, under every budget from 0 to the count and some over it.

use crate::given::{hold, Given, Held};
use crate::tally::Tally;
use crate::{bits, calls, sequences};
use second::generate::{netlist, Random};

pub fn once(r: &mut Random, tally: &mut Tally) -> Held {
    let most = if r.once_in(40) { 512 } else { 12 };
    let netlist = netlist(r, most);
    let text = sequences::any(r, &netlist);
    let (cells, instructions) =
        second::read_sequence(&text).map_or((5, 2), |s| (s.row, s.instructions.len()));
    let mut given = Given {
        bytes: bits::any(r, cells, 20),
        texts: vec![text],
        ..Given::default()
    };
    for budget in budgets(r, instructions) {
        given.numbers = vec![budget];
        hold(tally, "simulate", calls::simulate, &given)?;
    }
    Ok(())
}

/// Every budget where the sequence is short, else some of them.
fn budgets(r: &mut Random, instructions: usize) -> Vec<u64> {
    let mut budgets: Vec<u64> = match instructions < 60 {
        true => (0..=instructions as u64).collect(),
        false => (0..20).map(|_| r.below(instructions + 1) as u64).collect(),
    };
    budgets.extend([instructions as u64 + 1, u64::MAX]);
    budgets
}
