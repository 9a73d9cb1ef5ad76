//! The two programs over the library: input bytes to printed bytes.

use std::io::{self, stdin, stdout, Read, Write};

use crate::checker::check_read;
use crate::lines::{push_line, Lines};
use crate::netlist::read_part;
use crate::refusal;

/// The bytes of input that a program holds, and as many of output.
pub const HELD: usize = 65_536;

/// A job line and a netlist; prints the sequence, or 1F and the number.
pub fn rowmap(input: &[u8]) -> Vec<u8> {
    map_input(input).unwrap_or_else(refused)
}

/// A netlist and then a sequence; prints 1E and the cycles, or 1F and the number.
pub fn rowcheck(input: &[u8]) -> Vec<u8> {
    check_input(input).map_or_else(refused, passed)
}

/// Runs one of them from standard input to standard output.
pub fn run_program(program: fn(&[u8]) -> Vec<u8>) -> io::Result<()> {
    let mut input = Vec::new();
    // One byte past what a program holds is enough to know that the input is too long.
    stdin()
        .lock()
        .take(HELD as u64 + 1)
        .read_to_end(&mut input)?;
    stdout().lock().write_all(&program(&input))
}

/// The number that a program printed as its refusal.
pub fn printed_refusal(printed: &[u8]) -> Option<u8> {
    let digits = printed.strip_prefix(b"1F")?.get(..2)?;
    u8::from_str_radix(std::str::from_utf8(digits).ok()?, 16).ok()
}

fn map_input(input: &[u8]) -> Result<Vec<u8>, u8> {
    held(input)?;
    let mut lines = Lines::new(input);
    let &[0x0F, row] = lines.due()? else {
        return Err(refusal::FRAME);
    };
    let mut out = vec![0; HELD];
    let length = crate::map(u64::from(row) + 1, &input[lines.place()..], &mut out)?;
    out.truncate(length);
    Ok(out)
}

fn check_input(input: &[u8]) -> Result<usize, u8> {
    held(input)?;
    // The netlist's text is the input without the tail, so 6 and 7 come before the tail.
    let (netlist, place) = read_part(input)?;
    check_read(&netlist.judged()?, &input[place..])
}

fn held(input: &[u8]) -> Result<(), u8> {
    match input.len() <= HELD {
        true => Ok(()),
        false => Err(refusal::LINE),
    }
}

fn passed(cycles: usize) -> Vec<u8> {
    let [high, low] = (cycles as u16).to_be_bytes();
    line(&[0x1E, high, low])
}

fn refused(number: u8) -> Vec<u8> {
    line(&[0x1F, number])
}

fn line(bytes: &[u8]) -> Vec<u8> {
    let mut text = Vec::new();
    push_line(&mut text, bytes);
    text
}
