//! The independent second program, written from document 01 alone.
//! A refusal is its number; a refused call leaves every lent byte as it was.

mod cells;
mod checker;
mod device;
mod frames;
mod lines;
mod netlist;
mod order;
mod programs;
mod sequence;
mod values;
mod weights;

pub mod generate;
pub mod refusal;

pub use cells::mapped;
pub use checker::{check, checked};
pub use device::{simulate, step};
pub use frames::frame;
pub use lines::push_line;
pub use netlist::{read, tail, Gate, Netlist};
pub use order::order;
pub use programs::{printed_refusal, rowcheck, rowmap, run_program, HELD};
pub use sequence::{read_sequence, Instruction, Nor, Sequence};
pub use values::{evaluate, values};
pub use weights::weights;

/// Maps a netlist's text to a sequence's text in a row; answers the text's length.
pub fn map(row: u64, text: &[u8], out: &mut [u8]) -> Result<usize, u8> {
    if !(2..=256).contains(&row) {
        return Err(refusal::ROW_SIZE);
    }
    let netlist = read(text)?;
    let sequence = mapped(&netlist, row as usize)?.text();
    let place = out.get_mut(..sequence.len()).ok_or(refusal::SHORT_BUFFER)?;
    place.copy_from_slice(&sequence);
    Ok(sequence.len())
}
