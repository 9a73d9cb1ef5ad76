//! One input: a front of five numbers, then one text, a netlist and perhaps a sequence.

use second::generate::Random;

/// The bytes of the front, two a number.
pub const FRONT: usize = 10;

pub fn any_front(r: &mut Random) -> Vec<u8> {
    (0..FRONT).map(|_| r.below(256) as u8).collect()
}

pub struct Input<'a> {
    pub row: u64,
    pub budget: u64,
    pub place: u64,
    /// The seed of every row and of every input bit.
    pub bits: u64,
    /// How much longer a buffer is than what fills it.
    pub spare: isize,
    pub text: &'a [u8],
}

/// The fuzzer's bytes; it may lend none from nowhere.
///
/// # Safety
/// So many bytes stand there, unless there are none.
pub unsafe fn lent<'a>(data: *const u8, size: usize) -> &'a [u8] {
    match size {
        0 => &[],
        _ => std::slice::from_raw_parts(data, size),
    }
}

/// A number below the limit, or the largest there is.
fn number(pair: u16, limit: u16) -> u64 {
    match pair % (limit + 1) {
        last if last == limit => u64::MAX,
        number => u64::from(number),
    }
}

impl<'a> Input<'a> {
    /// None where the front is not whole.
    pub fn new(data: &'a [u8]) -> Option<Input<'a>> {
        let (front, text) = data.split_at_checked(FRONT)?;
        let pair = |at: usize| u16::from_be_bytes([front[2 * at], front[2 * at + 1]]);
        Some(Input {
            row: number(pair(0), 260),
            budget: number(pair(1), 1100),
            place: number(pair(2), 4100),
            bits: u64::from(pair(3)),
            spare: pair(4) as i16 as isize % 512,
            text,
        })
    }

    /// The netlist's part, and the part that follows it.
    pub fn parts(&self) -> (&'a [u8], &'a [u8]) {
        self.text.split_at(second::tail(self.text))
    }
}
