//! Prints a real circuit as a netlist's text: `circuit NAME`.

use second::generate::{classifier, comparator, full_adder, multiplier, parity, text_of};
use second::Netlist;
use std::io::{stdout, Write};

/// A circuit's name, what it is, and how it is made.
type Circuit = (&'static str, &'static str, fn() -> Netlist);

const CIRCUITS: [Circuit; 5] = [
    ("full_adder", "inputs a, b, carry; outputs sum and carry", full_adder),
    ("comparator", "two numbers of 4 bits; outputs less, equal, greater", || comparator(4)),
    ("parity", "1 where an odd number of 8 inputs is 1", || parity(8)),
    ("multiplier", "two numbers of 3 bits; outputs their product", || multiplier(3)),
    ("thistle", "30 leaf features, 10 of them counted where they are 0; 1 where at least 19 speak for a thistle", || {
        classifier(30, 0b10_0100_1001_0110_0100_1000_0101, 19)
    }),
];

fn main() -> std::io::Result<()> {
    let name = std::env::args().nth(1).unwrap_or_default();
    match CIRCUITS.iter().find(|circuit| circuit.0 == name) {
        Some((_, _, circuit)) => stdout().lock().write_all(&text_of(&circuit())),
        None => {
            for (name, what, _) in CIRCUITS {
                println!("{name}: {what}");
            }
            Ok(())
        }
    }
}
