//! NOR netlists on one row of resistive memory: the proved calls as safe functions.
//!
//! Every call takes every text, row and number there are, and ends. A refused call leaves every lent byte as it was.
//! docs/FORMAT.md explains the texts and what to do about each refusal.

pub mod refusal;

extern "C" {
    fn bhedhmurali_map(
        row: usize,
        text: *const u8,
        text_size: usize,
        out: *mut u8,
        out_size: usize,
    ) -> i64;
    fn bhedhmurali_check(
        netlist: *const u8,
        netlist_size: usize,
        sequence: *const u8,
        sequence_size: usize,
    ) -> i64;
    fn bhedhmurali_read(text: *const u8, text_size: usize) -> i64;
    fn bhedhmurali_tail(text: *const u8, text_size: usize) -> usize;
    fn bhedhmurali_evaluate(
        text: *const u8,
        text_size: usize,
        inputs: *const u8,
        inputs_size: usize,
        out: *mut u8,
        out_size: usize,
    ) -> i64;
    fn bhedhmurali_simulate(
        text: *const u8,
        text_size: usize,
        row: *mut u8,
        row_size: usize,
        budget: usize,
    ) -> i64;
    fn bhedhmurali_frame(text: *const u8, text_size: usize, at: usize) -> usize;
    fn bhedhmurali_next(text: *const u8, text_size: usize, at: usize) -> usize;
}

/// A call's answer: the value, or the number of the refusal, one of those in [`refusal`].
pub type Answer = Result<usize, u8>;

/// The library answers one number: the value, or minus the refusal's number.
fn answer(coded: i64) -> Answer {
    usize::try_from(coded).map_err(|_| u8::try_from(-coded).unwrap_or(u8::MAX))
}

/// Maps a netlist's text to a sequence's text for a row of so many cells. The text fills the front of `out`; answers its length.
pub fn map(row: u64, text: &[u8], out: &mut [u8]) -> Answer {
    let row = usize::try_from(row).unwrap_or(usize::MAX);
    answer(unsafe { bhedhmurali_map(row, text.as_ptr(), text.len(), out.as_mut_ptr(), out.len()) })
}

/// Checks a sequence, from any producer, against a netlist; answers the number of instructions where it passes.
pub fn check(netlist: &[u8], sequence: &[u8]) -> Answer {
    answer(unsafe {
        bhedhmurali_check(
            netlist.as_ptr(),
            netlist.len(),
            sequence.as_ptr(),
            sequence.len(),
        )
    })
}

/// Reads a netlist's text; answers 0, or the refusal, 1 to 7.
pub fn read(text: &[u8]) -> Answer {
    answer(unsafe { bhedhmurali_read(text.as_ptr(), text.len()) })
}

/// Where the part of the text that follows the netlist's last output line begins.
pub fn tail(text: &[u8]) -> usize {
    unsafe { bhedhmurali_tail(text.as_ptr(), text.len()) }
}

/// Works out a netlist's outputs for one byte, 0 or 1, an input. They fill the front of `out`; answers their number.
pub fn evaluate(text: &[u8], inputs: &[u8], out: &mut [u8]) -> Answer {
    answer(unsafe {
        bhedhmurali_evaluate(
            text.as_ptr(),
            text.len(),
            inputs.as_ptr(),
            inputs.len(),
            out.as_mut_ptr(),
            out.len(),
        )
    })
}

/// Runs a sequence on a row of one byte, 0 or 1, a cell, for at most `budget` cycles; answers the cycles run.
pub fn simulate(text: &[u8], row: &mut [u8], budget: u64) -> Answer {
    let budget = usize::try_from(budget).unwrap_or(usize::MAX);
    answer(unsafe {
        bhedhmurali_simulate(
            text.as_ptr(),
            text.len(),
            row.as_mut_ptr(),
            row.len(),
            budget,
        )
    })
}

/// How many digits the frame at a place has, 0 where none stands there; and the place after it, the same where none stands there.
pub fn frame(text: &[u8], at: usize) -> (usize, usize) {
    unsafe {
        (
            bhedhmurali_frame(text.as_ptr(), text.len(), at),
            bhedhmurali_next(text.as_ptr(), text.len(), at),
        )
    }
}
