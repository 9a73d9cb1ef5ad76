//! The frame reader: a text read frame by frame from the start, and at any place.

use crate::calls;
use crate::given::{hold, Given, Held};
use crate::tally::Tally;
use second::generate::{damaged, netlist, text_of, Random};

pub fn once(r: &mut Random, tally: &mut Tally) -> Held {
    let netlist = netlist(r, 12);
    let mut text = text_of(&netlist);
    if !r.once_in(4) {
        text = damaged(r, &text);
    }
    let places = [r.below(text.len() + 3) as u64, u64::MAX];
    walked(tally, text, &places)
}

/// Every frame from the start on, and at some places more.
pub fn walked(tally: &mut Tally, text: Vec<u8>, places: &[u64]) -> Held {
    let mut given = Given {
        texts: vec![text],
        numbers: vec![0],
        ..Given::default()
    };
    loop {
        hold(tally, "frame", calls::frame, &given)?;
        let at = given.numbers[0];
        let next = second::frame(&given.texts[0], at as usize).2 as u64;
        if next == at {
            break;
        }
        given.numbers = vec![next];
    }
    for place in places {
        given.numbers = vec![*place];
        hold(tally, "frame", calls::frame, &given)?;
    }
    Ok(())
}
