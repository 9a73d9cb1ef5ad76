//! The fuzzer's changes: half of them its own, half in whole lines.

use crate::input::{any_front, lent, Input, FRONT};
use second::generate::{damaged, netlist, sequence_for, text_of, Random};

extern "C" {
    fn LLVMFuzzerMutate(data: *mut u8, size: usize, most: usize) -> usize;
}

/// # Safety
/// As the fuzzer calls it: `size` bytes stand there, and room for `most`.
#[no_mangle]
pub unsafe extern "C" fn LLVMFuzzerCustomMutator(
    data: *mut u8,
    size: usize,
    most: usize,
    seed: u32,
) -> usize {
    let r = &mut Random::new(u64::from(seed));
    let changed = match r.once_in(2) {
        true => in_lines(r, lent(data, size)).filter(|changed| changed.len() <= most),
        false => None,
    };
    let Some(changed) = changed else {
        return LLVMFuzzerMutate(data, size, most);
    };
    data.copy_from_nonoverlapping(changed.as_ptr(), changed.len());
    changed.len()
}

/// Another front, the netlist damaged, the sequence damaged, another sequence, or another pair.
fn in_lines(r: &mut Random, data: &[u8]) -> Option<Vec<u8>> {
    let (netlist, sequence) = Input::new(data)?.parts();
    let mut front = data[..FRONT].to_vec();
    let (mut netlist, mut sequence) = (netlist.to_vec(), sequence.to_vec());
    match r.below(5) {
        0 => front = any_front(r),
        1 => netlist = damaged(r, &netlist),
        2 => sequence = damaged(r, &sequence),
        3 => sequence = sequence_for(r, &second::read(&netlist).ok()?),
        _ => (netlist, sequence) = another_pair(r),
    }
    Some([front, netlist, sequence].concat())
}

fn another_pair(r: &mut Random) -> (Vec<u8>, Vec<u8>) {
    let other = netlist(r, 10);
    (text_of(&other), sequence_for(r, &other))
}
