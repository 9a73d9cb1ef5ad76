//! Generators for tests, all seeded: the same seed gives the same things.

mod builder;
mod circuits;
mod damage;
mod foreign;
mod least;
mod random;
mod sequence;
mod shapes;

pub use builder::{Builder, Wire};
pub use circuits::{
    classifier, comparator, decoder, full_adder, multiplexer, multiplier, parity, ripple_adder,
    threshold,
};
pub use damage::damaged;
pub use foreign::foreign;
pub use least::least_row;
pub use random::Random;
pub use sequence::sequence_for;
pub use shapes::{
    chain, many_outputs, mixture, netlist, read_outputs, sharing, tree, wide, SHAPES,
};

/// A netlist's text.
pub fn text_of(netlist: &crate::Netlist) -> Vec<u8> {
    netlist.text()
}
