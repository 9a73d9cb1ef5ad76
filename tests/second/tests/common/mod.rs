//! What several test files share.
#![allow(dead_code)]

/// The whole case of document 01: exclusive or of two inputs.
pub const XOR: &str =
    "0102000501\n0200000001\n0200000002\n0200010002\n0200030004\n020005\n030006\n";

/// The whole case's sequence in a row of 5.
pub const XOR_ROW_5: &str =
    "110402010008\n12020304\n13020001\n13030002\n13040102\n1202\n13020304\n120304\n130302\n1403\n";

/// One input, one NOT.
pub const NOT: &str = "0101000101\n020000\n030001\n";

/// A sequence of row 5, two inputs, one output: these instructions, place 3.
pub fn sequence(instructions: &[&str]) -> String {
    let lines: String = instructions
        .iter()
        .map(|line| format!("{line}\n"))
        .collect();
    format!("11040201{:04X}\n{lines}1403\n", instructions.len())
}

/// What map writes, or its number; a refusal must leave the buffer alone.
pub fn map(row: u64, text: &str) -> Result<String, u8> {
    let mut out = vec![0xAA; 65_536];
    match second::map(row, text.as_bytes(), &mut out) {
        Ok(length) => {
            assert!(
                out[length..].iter().all(|byte| *byte == 0xAA),
                "the rest stays"
            );
            Ok(String::from_utf8(out[..length].to_vec()).unwrap())
        }
        Err(number) => {
            assert!(
                out.iter().all(|byte| *byte == 0xAA),
                "a refusal writes nothing"
            );
            Err(number)
        }
    }
}

/// What evaluate writes, or its number.
pub fn evaluate(text: &str, inputs: &[u8]) -> Result<Vec<u8>, u8> {
    let mut out = [0xAA; 70];
    match second::evaluate(text.as_bytes(), inputs, &mut out) {
        Ok(count) => {
            assert!(
                out[count..].iter().all(|byte| *byte == 0xAA),
                "the rest stays"
            );
            Ok(out[..count].to_vec())
        }
        Err(number) => {
            assert_eq!(out, [0xAA; 70], "a refusal writes nothing");
            Err(number)
        }
    }
}

/// The cycles run and the row after them, or the number.
pub fn simulate(text: &str, row: &[u8], budget: u64) -> Result<(usize, Vec<u8>), u8> {
    let mut after = row.to_vec();
    match second::simulate(text.as_bytes(), &mut after, budget) {
        Ok(cycles) => Ok((cycles, after)),
        Err(number) => {
            assert_eq!(after, row, "a refusal leaves the row");
            Err(number)
        }
    }
}

pub fn check(netlist: &str, sequence: &str) -> Result<usize, u8> {
    second::check(netlist.as_bytes(), sequence.as_bytes())
}

/// The number that the reading of a netlist gives, 0 where it reads well.
pub fn number(text: &str) -> u8 {
    second::read(text.as_bytes()).err().unwrap_or(0)
}

/// The number that the reading of a sequence gives, 0 where it reads well.
pub fn sequence_number(text: &str) -> u8 {
    second::read_sequence(text.as_bytes()).err().unwrap_or(0)
}

pub fn rowmap(input: &str) -> String {
    String::from_utf8(second::rowmap(input.as_bytes())).unwrap()
}

pub fn rowcheck(input: &str) -> String {
    String::from_utf8(second::rowcheck(input.as_bytes())).unwrap()
}

/// A chain of NOTs: one input, this many gates, the last is the output.
pub fn chain(gates: usize) -> String {
    let mut text = format!("0101{gates:04X}01\n");
    for signal in 0..gates {
        text += &format!("02{signal:04X}\n");
    }
    text + &format!("03{gates:04X}\n")
}

/// A netlist of one NOT over the last of this many inputs.
pub fn wide(inputs: usize) -> String {
    format!(
        "01{inputs:02X}000101\n02{:04X}\n03{inputs:04X}\n",
        inputs - 1
    )
}

/// A text with one of its lines replaced.
pub fn with_line(text: &str, old: &str, new: &str) -> String {
    let at = text
        .lines()
        .position(|line| line == old)
        .expect("the line stands there");
    let replaced = |(place, line)| format!("{}\n", if place == at { new } else { line });
    text.lines().enumerate().map(replaced).collect()
}
