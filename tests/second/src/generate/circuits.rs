//! Real circuits as NOR netlists. Numbers have their low bit first.

use super::{Builder, Wire};
use crate::Netlist;

/// Inputs a, b, carry; outputs sum and carry.
pub fn full_adder() -> Netlist {
    ripple_adder(1)
}

/// Inputs: two numbers and a carry; outputs: the sum with one bit more. At most 31 bits.
pub fn ripple_adder(bits: usize) -> Netlist {
    let mut b = Builder::new(2 * bits + 1);
    let mut carry = b.input(2 * bits);
    let mut outputs = Vec::new();
    for bit in 0..bits {
        let (sum, next) = b.add(b.input(bit), b.input(bits + bit), carry);
        outputs.push(sum);
        carry = next;
    }
    outputs.push(carry);
    b.finish(&outputs)
}

/// Inputs: two numbers; outputs: less, equal, greater. At most 32 bits.
pub fn comparator(bits: usize) -> Netlist {
    let mut b = Builder::new(2 * bits);
    let (mut less, mut equal) = (Wire::Low, Wire::High);
    for bit in 0..bits {
        let (one, other) = (b.input(bit), b.input(bits + bit));
        let same = b.equal(one, other);
        let not_other = b.not(other);
        let below = b.nor(&[one, not_other]);
        let kept = b.and(&[same, less]);
        less = b.or(&[below, kept]);
        equal = b.and(&[equal, same]);
    }
    let greater = b.nor(&[less, equal]);
    b.finish(&[less, equal, greater])
}

/// Outputs 1 where an odd number of inputs is 1.
pub fn parity(bits: usize) -> Netlist {
    let mut b = Builder::new(bits);
    let mut odd = Wire::Low;
    for bit in 0..bits {
        let same = b.equal(odd, b.input(bit));
        odd = b.not(same);
    }
    b.finish(&[odd])
}

/// Output n is 1 where the inputs are the number n. At most 6 bits.
pub fn decoder(bits: usize) -> Netlist {
    let mut b = Builder::new(bits);
    let outputs: Vec<Wire> = (0..1 << bits)
        .map(|number| selected(&mut b, 0, bits, number))
        .collect();
    b.finish(&outputs)
}

/// Inputs: the select bits, then the data; output: the data bit that is selected. At most 5 select bits.
pub fn multiplexer(selects: usize) -> Netlist {
    let mut b = Builder::new(selects + (1 << selects));
    let mut chosen = Vec::new();
    for number in 0..1 << selects {
        let here = selected(&mut b, 0, selects, number);
        chosen.push(b.and(&[here, b.input(selects + number)]));
    }
    let output = b.or(&chosen);
    b.finish(&[output])
}

/// Inputs: two numbers; outputs: their product. At most 7 bits.
pub fn multiplier(bits: usize) -> Netlist {
    let mut b = Builder::new(2 * bits);
    let mut columns = vec![Vec::new(); 2 * bits];
    for one in 0..bits {
        for other in 0..bits {
            let both = b.and(&[b.input(one), b.input(bits + other)]);
            columns[one + other].push(both);
        }
    }
    let product = b.sum(columns);
    b.finish(&product[..2 * bits])
}

/// 1 where at least so many inputs are 1. At most about 50 inputs.
pub fn threshold(features: usize, at_least: u64) -> Netlist {
    classifier(features, 0, at_least)
}

/// A threshold over features of which the marked ones count where they are 0.
pub fn classifier(features: usize, negated: u64, at_least: u64) -> Netlist {
    let mut b = Builder::new(features);
    let mut votes = b.inputs(0, features);
    for (number, vote) in votes.iter_mut().enumerate() {
        if negated >> number & 1 == 1 {
            *vote = b.not(*vote);
        }
    }
    let mut count = b.sum(vec![votes]);
    // A bit for each bit of the limit, so that no limit is out of reach of the comparison.
    let limit_bits = 64 - at_least.leading_zeros() as usize;
    count.resize(count.len().max(limit_bits), Wire::Low);
    let mut reached = Wire::High;
    for (bit, wire) in count.iter().enumerate() {
        reached = match at_least >> bit & 1 {
            1 => b.and(&[*wire, reached]),
            _ => b.or(&[*wire, reached]),
        };
    }
    b.finish(&[reached])
}

/// 1 where the inputs from the first on are this number.
fn selected(b: &mut Builder, first: usize, bits: usize, number: usize) -> Wire {
    let mut wrong = Vec::new();
    for bit in 0..bits {
        let wire = b.input(first + bit);
        wrong.push(match number >> bit & 1 {
            1 => b.not(wire),
            _ => wire,
        });
    }
    b.nor(&wrong)
}
