//! How much stack a call uses: the stack below is painted first, and what has lost its paint afterwards was used.

use crate::cases::Case;
use std::ptr;

const WHOLE: usize = 8 << 20;
const PAINTED: usize = 4 << 20;
/// Room for the frames of the painting itself: what is used of it is not seen.
const SKIPPED: usize = 1024;
const PAINT: u8 = 0xA5;

/// The bytes of stack that a call uses on a case, to the nearest kibibyte at the least.
pub fn used(mut case: Case, call: fn(&mut Case)) -> usize {
    let thread = std::thread::Builder::new()
        .stack_size(WHOLE)
        .spawn(move || {
            let here = 0u8;
            let top = ptr::from_ref(&here) as usize - SKIPPED;
            paint(top);
            call(&mut case);
            SKIPPED + top - lowest_unpainted(top)
        });
    thread.map(|thread| thread.join().unwrap_or(0)).unwrap_or(0)
}

#[inline(always)]
fn paint(top: usize) {
    for place in top - PAINTED..top {
        // The thread's own stack, below every frame that is in use.
        unsafe { ptr::write_volatile(place as *mut u8, PAINT) };
    }
}

#[inline(always)]
fn lowest_unpainted(top: usize) -> usize {
    let kept = |place: &usize| unsafe { ptr::read_volatile(*place as *const u8) } == PAINT;
    let painted = (top - PAINTED..top).take_while(kept);
    top - PAINTED + painted.count()
}
