//! Each circuit's values are what its arithmetic says.

use second::generate::*;
use second::Netlist;

/// The circuit's outputs as a number, low bit first.
fn value(netlist: &Netlist, text: &[u8], inputs: u64) -> u64 {
    let bits: Vec<u8> = (0..netlist.inputs)
        .map(|bit| (inputs >> bit & 1) as u8)
        .collect();
    let mut out = vec![0; netlist.outputs.len()];
    assert_eq!(second::evaluate(text, &bits, &mut out), Ok(out.len()));
    out.iter()
        .rev()
        .fold(0, |number, bit| number * 2 + u64::from(*bit))
}

/// Compares on all inputs where they are few, else on many; also maps and checks.
fn means(netlist: Netlist, meaning: impl Fn(u64) -> u64) {
    let text = text_of(&netlist);
    assert_eq!(second::read(&text).as_ref(), Ok(&netlist));
    let r = &mut Random::new(7);
    let all = netlist.inputs < 10;
    for number in 0..1 << netlist.inputs.min(10) {
        let random = r.number() >> (64 - netlist.inputs);
        let inputs = if all { number } else { random };
        assert_eq!(
            value(&netlist, &text, inputs),
            meaning(inputs),
            "inputs {inputs:b}"
        );
    }
    if let Some(row) = least_row(&text) {
        let mut out = vec![0; 65_536];
        let length = second::map(row, &text, &mut out).unwrap();
        assert!(second::check(&text, &out[..length]).is_ok());
    }
}

/// Two numbers of so many bits, one after the other.
fn two(inputs: u64, bits: usize) -> (u64, u64) {
    let mask = (1 << bits) - 1;
    (inputs & mask, inputs >> bits & mask)
}

#[test]
fn adders() {
    assert_eq!(full_adder().gates.len(), 9);
    means(full_adder(), |inputs| u64::from(inputs.count_ones()));
    for bits in [2, 3, 4, 8, 16, 31] {
        means(ripple_adder(bits), |inputs| {
            let (a, b) = two(inputs, bits);
            a + b + (inputs >> (2 * bits) & 1)
        });
    }
}

#[test]
fn comparators() {
    for bits in [1, 2, 4, 8, 32] {
        let meaning = |inputs| {
            let (a, b) = two(inputs, bits);
            u64::from(a < b) + 2 * u64::from(a == b) + 4 * u64::from(a > b)
        };
        means(comparator(bits), meaning);
    }
    // Equal numbers are rare among random ones.
    let netlist = comparator(20);
    let text = text_of(&netlist);
    for number in (0..1 << 20).step_by(9973) {
        assert_eq!(value(&netlist, &text, number << 20 | number), 2);
        assert_eq!(
            value(&netlist, &text, number << 20 | (number ^ 1)),
            1 << (2 * (1 - number % 2))
        );
    }
}

#[test]
fn parities() {
    for bits in [2, 3, 7, 20, 64] {
        means(parity(bits), |inputs| u64::from(inputs.count_ones() % 2));
    }
    // Of one input the parity is the input itself, as a gate.
    means(parity(1), |inputs| inputs);
}

#[test]
fn decoders() {
    for bits in 1..=6 {
        means(decoder(bits), |inputs| 1 << inputs);
    }
}

#[test]
fn multiplexers() {
    for selects in 1..=5 {
        means(multiplexer(selects), |inputs| {
            inputs >> selects >> (inputs & ((1 << selects) - 1)) & 1
        });
    }
}

#[test]
fn multipliers() {
    for bits in [2, 3, 4, 5, 6, 7] {
        means(multiplier(bits), |inputs| {
            let (a, b) = two(inputs, bits);
            a * b
        });
    }
}

#[test]
fn thresholds() {
    for (features, at_least) in [
        (1, 1),
        (5, 0),
        (5, 3),
        (5, 6),
        (9, 5),
        (30, 12),
        (30, 15),
        (50, 25),
    ] {
        means(threshold(features, at_least), |inputs| {
            u64::from(u64::from(inputs.count_ones()) >= at_least)
        });
    }
    let negated = 0x2AAA_F0F1;
    means(classifier(30, negated, 15), |inputs| {
        u64::from((inputs ^ negated).count_ones() >= 15)
    });
    assert!(classifier(30, negated, 15).gates.len() <= 300);
}
