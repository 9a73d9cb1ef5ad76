//! The proved library's calls, counted.

use bhedhmurali::Answer;
use std::sync::atomic::{AtomicU64, Ordering};

static CALLS: AtomicU64 = AtomicU64::new(0);

/// How many calls the library has answered.
pub fn calls_made() -> u64 {
    CALLS.load(Ordering::Relaxed)
}

fn counted<T>(said: T) -> T {
    CALLS.fetch_add(1, Ordering::Relaxed);
    said
}

pub fn map(row: u64, text: &[u8], out: &mut [u8]) -> Answer {
    counted(bhedhmurali::map(row, text, out))
}

pub fn check(netlist: &[u8], sequence: &[u8]) -> Answer {
    counted(bhedhmurali::check(netlist, sequence))
}

pub fn read(text: &[u8]) -> Answer {
    counted(bhedhmurali::read(text))
}

pub fn tail(text: &[u8]) -> usize {
    counted(bhedhmurali::tail(text))
}

pub fn evaluate(text: &[u8], inputs: &[u8], out: &mut [u8]) -> Answer {
    counted(bhedhmurali::evaluate(text, inputs, out))
}

pub fn simulate(text: &[u8], row: &mut [u8], budget: u64) -> Answer {
    counted(bhedhmurali::simulate(text, row, budget))
}

/// Two calls of the library: the width and the next place.
pub fn frame(text: &[u8], at: usize) -> (usize, usize) {
    counted(counted(bhedhmurali::frame(text, at)))
}
