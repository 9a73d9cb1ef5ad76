//! Netlists mapped at the least row, one below it, one above, 256, and a row outside: map, and check of every mapped text.

use crate::given::{hold, Given, Held};
use crate::tally::Tally;
use crate::{calls, laws};
use second::generate::{damaged, least_row, netlist, text_of, Random};

pub fn once(r: &mut Random, tally: &mut Tally) -> Held {
    let (text, least) = made(r);
    let outside = r.pick(&[0, 1, 257, u64::MAX]).unwrap_or(0);
    for row in [least, least - 1, least + 1, 256, outside] {
        one(r, row, &text, tally)?;
    }
    Ok(())
}

/// A netlist's text, good or damaged, and the least row of the good one.
pub fn made(r: &mut Random) -> (Vec<u8>, u64) {
    let most = if r.once_in(25) { 512 } else { 40 };
    let netlist = netlist(r, most);
    let mut text = text_of(&netlist);
    let least = least_row(&text).unwrap_or(256);
    if r.once_in(5) {
        text = damaged(r, &text);
    }
    (text, least)
}

/// The text is as long as the buffer, one byte longer, or shorter.
fn one(r: &mut Random, row: u64, text: &[u8], tally: &mut Tally) -> Held {
    let whole = second::map(row, text, &mut vec![0; second::HELD]).unwrap_or(100);
    let size = match r.below(8) {
        0 => whole - 1,
        1 => whole,
        _ => whole + r.below(50),
    };
    let given = Given {
        texts: vec![text.to_vec()],
        numbers: vec![row, size as u64],
        ..Given::default()
    };
    hold(tally, "map", calls::map, &given)?;
    hold(tally, "mapped passes", laws::mapped_passes, &given)
}
