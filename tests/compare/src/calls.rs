//! Each call made of both sides on the same bytes: how they differ, answer and every lent byte.

use crate::given::{Given, Verdict};
use crate::proved;
use bhedhmurali::Answer;
use std::fmt::Debug;

/// Whether two sides said the same.
fn compared<T: PartialEq + Debug>(number: u8, ours: T, second: T) -> Verdict {
    match ours == second {
        true => Verdict::Holds(number),
        false => Verdict::Differs(format!(
            "the library says {ours:?}, the second program {second:?}"
        )),
    }
}

/// An answer compared, and then each byte that was lent for it.
fn answers(said: Answer, due: Answer, ours: &[u8], second: &[u8]) -> Verdict {
    match (0..ours.len()).find(|at| ours[*at] != second[*at]) {
        Some(at) if said == due => Verdict::Differs(format!(
            "byte {at} is {} after the library, {} after the second program",
            ours[at], second[at]
        )),
        _ => compared(due.err().unwrap_or(0), said, due),
    }
}

/// A buffer of a pattern, so that a byte that should stay is seen to stay.
fn buffer(size: u64) -> Vec<u8> {
    (0..size).map(|place| (place * 37 + 11) as u8).collect()
}

/// The frame at a place: texts[0], numbers[0].
pub fn frame(given: &Given) -> Verdict {
    let (text, at) = (&given.texts[0], given.numbers[0] as usize);
    let (start, end, next) = second::frame(text, at);
    compared(0, proved::frame(text, at), (end - start, next))
}

/// simulate: texts[0] on the row bytes under the budget numbers[0].
pub fn simulate(given: &Given) -> Verdict {
    let (mut ours, mut theirs) = (given.bytes.clone(), given.bytes.clone());
    let (text, budget) = (&given.texts[0], given.numbers[0]);
    let said = proved::simulate(text, &mut ours, budget);
    let due = second::simulate(text, &mut theirs, budget);
    answers(said, due, &ours, &theirs)
}

/// The reading's number: texts[0].
pub fn read(given: &Given) -> Verdict {
    let text = &given.texts[0];
    let due = second::read(text).map(|_| 0);
    answers(proved::read(text), due, &[], &[])
}

/// The tail's place: texts[0].
pub fn tail(given: &Given) -> Verdict {
    let text = &given.texts[0];
    compared(0, proved::tail(text), second::tail(text))
}

/// evaluate: texts[0] on the bytes, into a buffer of numbers[0] bytes.
pub fn evaluate(given: &Given) -> Verdict {
    let (mut ours, mut theirs) = (buffer(given.numbers[0]), buffer(given.numbers[0]));
    let text = &given.texts[0];
    let said = proved::evaluate(text, &given.bytes, &mut ours);
    let due = second::evaluate(text, &given.bytes, &mut theirs);
    answers(said, due, &ours, &theirs)
}

/// check: texts[0] against texts[1].
pub fn check(given: &Given) -> Verdict {
    let (netlist, sequence) = (&given.texts[0], &given.texts[1]);
    let due = second::check(netlist, sequence);
    answers(proved::check(netlist, sequence), due, &[], &[])
}

/// map: texts[0] in a row of numbers[0], into a buffer of numbers[1] bytes.
pub fn map(given: &Given) -> Verdict {
    let (mut ours, mut theirs) = (buffer(given.numbers[1]), buffer(given.numbers[1]));
    let (row, text) = (given.numbers[0], &given.texts[0]);
    let said = proved::map(row, text, &mut ours);
    let due = second::map(row, text, &mut theirs);
    answers(said, due, &ours, &theirs)
}
