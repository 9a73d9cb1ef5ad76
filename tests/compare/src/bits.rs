//! Bytes that stand for inputs or cells.

use second::generate::Random;

/// The most cells of a row.
const MOST_CELLS: usize = 256;

/// So many zeros and ones; once in so many times one too many, or with another byte.
pub fn any(r: &mut Random, count: usize, times: usize) -> Vec<u8> {
    let more = usize::from(r.once_in(times));
    let mut bits = r.bits(count + more);
    if r.once_in(times) {
        bits[0] = 2 + r.below(254) as u8;
    }
    bits
}

/// As many as the longest row has.
pub fn row(r: &mut Random) -> Vec<u8> {
    r.bits(MOST_CELLS)
}
