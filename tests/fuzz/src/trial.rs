//! Every call on one input, compared, and the laws over them.

use crate::input::Input;
use compare::{bits, calls, frames, hold, laws, proved, Given, Held, Tally};
use second::generate::Random;
use std::sync::{LazyLock, Mutex, PoisonError};

static TALLY: LazyLock<Mutex<Tally>> = LazyLock::new(Mutex::default);

/// Stops the program at a difference, so that the fuzzer keeps the input.
pub fn hold_all(data: &[u8]) {
    let Some(input) = Input::new(data) else {
        return;
    };
    let mut tally = TALLY.lock().unwrap_or_else(PoisonError::into_inner);
    if let Err(difference) = every_call(&input, &mut tally) {
        println!("{difference}");
        std::process::abort();
    }
}

pub extern "C" fn print_counts() {
    TALLY.lock().unwrap_or_else(PoisonError::into_inner).print();
    println!("{} calls of the library", proved::calls_made());
}

fn every_call(input: &Input, tally: &mut Tally) -> Held {
    let (netlist, rest) = input.parts();
    let r = &mut Random::new(input.bits);
    let whole = Given {
        texts: vec![input.text.to_vec()],
        ..Given::default()
    };
    hold(tally, "tail", calls::tail, &whole)?;
    hold(tally, "read", calls::read, &whole)?;
    frames::walked(tally, input.text.to_vec(), &[input.place])?;
    read_and_evaluated(input, netlist, r, tally)?;
    mapped(input, netlist, tally)?;
    // A text with no netlist in front may be a sequence itself.
    let sequence = if rest.is_empty() { input.text } else { rest };
    simulated(input, sequence, r, tally)?;
    checked(netlist, rest, r, tally)
}

fn read_and_evaluated(input: &Input, netlist: &[u8], r: &mut Random, tally: &mut Tally) -> Held {
    let (inputs, outputs) = second::read(netlist).map_or((2, 1), |n| (n.inputs, n.outputs.len()));
    let given = Given {
        texts: vec![netlist.to_vec()],
        bytes: bits::any(r, inputs, 12),
        numbers: vec![outputs.saturating_add_signed(input.spare % 8) as u64],
    };
    hold(tally, "read", calls::read, &given)?;
    hold(tally, "evaluate", calls::evaluate, &given)
}

fn mapped(input: &Input, netlist: &[u8], tally: &mut Tally) -> Held {
    let filled = second::map(input.row, netlist, &mut vec![0; second::HELD]).unwrap_or(0);
    let given = Given {
        texts: vec![netlist.to_vec()],
        numbers: vec![input.row, filled.saturating_add_signed(input.spare) as u64],
        ..Given::default()
    };
    hold(tally, "map", calls::map, &given)?;
    hold(tally, "mapped passes", laws::mapped_passes, &given)
}

fn simulated(input: &Input, sequence: &[u8], r: &mut Random, tally: &mut Tally) -> Held {
    let cells = second::read_sequence(sequence).map_or(5, |sequence| sequence.row);
    let given = Given {
        texts: vec![sequence.to_vec()],
        bytes: bits::any(r, cells, 12),
        numbers: vec![input.budget],
    };
    hold(tally, "simulate", calls::simulate, &given)
}

fn checked(netlist: &[u8], sequence: &[u8], r: &mut Random, tally: &mut Tally) -> Held {
    let given = Given {
        texts: vec![netlist.to_vec(), sequence.to_vec()],
        bytes: bits::row(r),
        ..Given::default()
    };
    hold(tally, "check", calls::check, &given)?;
    hold(tally, "defended", laws::defended, &given)
}
