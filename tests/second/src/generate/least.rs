//! The least row of a netlist, found by trying.

use crate::{mapped, read};

/// The least row in which the mapper finds room; none where no row has it or the text is bad.
pub fn least_row(text: &[u8]) -> Option<u64> {
    let netlist = read(text).ok()?;
    let first = (netlist.inputs + 1).max(2);
    let row = (first..=256).find(|row| mapped(&netlist, *row).is_ok())?;
    Some(row as u64)
}
