//! Netlist texts, good and damaged: the reading's number, the tail, and evaluate.

use crate::given::{hold, Given, Held};
use crate::tally::Tally;
use crate::{bits, calls};
use second::generate::{damaged, netlist, text_of, Random};

pub fn once(r: &mut Random, tally: &mut Tally) -> Held {
    if r.once_in(500) {
        for text in edges() {
            one(r, text, 2, tally)?;
        }
    }
    let most = if r.once_in(50) { 512 } else { 24 };
    let netlist = netlist(r, most);
    let mut text = text_of(&netlist);
    if !r.once_in(4) {
        text = damaged(r, &text);
    }
    one(r, text, netlist.inputs, tally)
}

/// Texts at the edges of the rule for lines and of a head's numbers.
fn edges() -> Vec<Vec<u8>> {
    let long = |digits: usize| [vec![b'0'; digits], vec![b'\n']].concat();
    let short = ["", "\n", "0", "01", "01\n", "FF\n01", "0102000501", "0a\n"];
    let heads = [
        "0100000101",
        "0140000101",
        "0141000101",
        "0101000001",
        "0101020001",
        "0101020101",
        "0101000100",
        "0101000140",
        "0101000141",
    ];
    let mut texts: Vec<Vec<u8>> = short.map(|text| text.as_bytes().to_vec()).to_vec();
    texts.extend([long(514), long(515), long(516), vec![b'0'; 65_536], vec![0]]);
    texts.extend(heads.map(|head| format!("{head}\n").into_bytes()));
    texts
}

fn one(r: &mut Random, text: Vec<u8>, inputs: usize, tally: &mut Tally) -> Held {
    let given = Given {
        texts: vec![text],
        bytes: bits::any(r, inputs, 10),
        numbers: vec![r.pick(&[0, 1, 2, 64, 70]).unwrap_or(0)],
    };
    hold(tally, "read", calls::read, &given)?;
    hold(tally, "tail", calls::tail, &given)?;
    hold(tally, "evaluate", calls::evaluate, &given)
}
