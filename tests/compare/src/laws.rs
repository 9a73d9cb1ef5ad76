//! Laws that the library alone keeps from call to call.

use crate::given::{Given, Verdict};
use crate::proved;
use second::Sequence;

/// The most outputs that a netlist has.
const MOST_OUTPUTS: usize = 64;

/// Every mapped text is passed by check: texts[0] in a row of numbers[0], into a buffer of numbers[1] bytes.
pub fn mapped_passes(given: &Given) -> Verdict {
    let mut out = vec![0; given.numbers[1] as usize];
    let (row, text) = (given.numbers[0], &given.texts[0]);
    let Ok(length) = proved::map(row, text, &mut out) else {
        return Verdict::Silent;
    };
    match proved::check(text, &out[..length]) {
        Ok(_) => Verdict::Holds(0),
        Err(refused) => Verdict::Differs(format!("check refuses a mapped text with {refused}")),
    }
}

/// A sequence that check passes computes its netlist: texts[0] and texts[1], the row in the first bytes.
pub fn defended(given: &Given) -> Verdict {
    let (netlist, text) = (&given.texts[0], &given.texts[1]);
    if proved::check(netlist, text).is_err() {
        return Verdict::Silent;
    }
    let Ok(sequence) = second::read_sequence(text) else {
        return Verdict::Differs("check passes a text that is no sequence".into());
    };
    let Some(before) = given.bytes.get(..sequence.row) else {
        return Verdict::Silent;
    };
    let mut after = before.to_vec();
    let ran = proved::simulate(text, &mut after, u64::MAX);
    let broken = broken_run(&sequence, before, ran, &after)
        .or_else(|| wrong_output(netlist, &sequence, before, &after));
    broken.map_or(Verdict::Holds(0), |broken| {
        Verdict::Differs(format!("check passes, and {broken}"))
    })
}

/// What is wrong with a whole run, where anything is: its cycles, an input cell, or a cell that is not named.
fn broken_run(
    sequence: &Sequence,
    before: &[u8],
    ran: Result<usize, u8>,
    after: &[u8],
) -> Option<String> {
    let due = sequence.instructions.len();
    if ran != Ok(due) {
        return Some(format!("simulate says {ran:?} of {due} instructions"));
    }
    let named = sequence.named();
    let kept = |cell: &usize| *cell < sequence.inputs || !named[*cell];
    let changed = (0..sequence.row).find(|cell| kept(cell) && before[*cell] != after[*cell])?;
    Some(format!("cell {changed} changes, an input or not named"))
}

/// What is wrong with the outputs' cells, where anything is.
fn wrong_output(
    netlist: &[u8],
    sequence: &Sequence,
    before: &[u8],
    after: &[u8],
) -> Option<String> {
    let mut values = [0; MOST_OUTPUTS];
    let said = proved::evaluate(netlist, &before[..sequence.inputs], &mut values);
    if said != Ok(sequence.places.len()) {
        return Some(format!("evaluate says {said:?}"));
    }
    let held = |(place, value): &(&u8, u8)| after[usize::from(**place)] == *value;
    let (place, value) = sequence
        .places
        .iter()
        .zip(values)
        .find(|pair| !held(pair))?;
    Some(format!("cell {place} does not hold its output, {value}"))
}
