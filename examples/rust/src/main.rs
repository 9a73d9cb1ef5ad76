//! The whole case of document 01 through the library: map, check, simulate.

use bhedhmurali::{check, evaluate, map, refusal, simulate, Answer};

const NETLIST: &[u8] =
    b"0102000501\n0200000001\n0200000002\n0200010002\n0200030004\n020005\n030006\n";

/// Says what a call answered.
fn said(call: &str, answer: Answer) {
    match answer {
        Ok(value) => println!("{call}: {value}"),
        Err(number) => println!("{call}: refused with {number}"),
    }
}

fn main() -> Result<(), u8> {
    let mut out = [0; 4096];
    let length = map(5, NETLIST, &mut out)?;
    let sequence = &out[..length];
    said("map, row of 5", Ok(length));
    print!("{}", String::from_utf8_lossy(sequence));
    said("check", check(NETLIST, sequence));
    for number in 0..4 {
        let inputs = [number / 2, number % 2];
        let [a, b] = inputs;
        let mut row = [a, b, 0, 0, 0];
        let mut value = [0];
        simulate(sequence, &mut row, 100)?;
        evaluate(NETLIST, &inputs, &mut value)?;
        assert_eq!(row[3], value[0], "the row and the netlist differ");
        println!("inputs {a} {b}: cell 3 holds {}", row[3]);
    }
    let shorter = map(4, NETLIST, &mut [0; 4096]);
    assert_eq!(shorter, Err(refusal::NO_ROOM));
    said("map, row of 4", shorter);
    Ok(())
}
