//! `compare KIND TIMES [SEED]`: so many times of a kind, and every number that its calls can give is seen.

use compare::{Tally, KINDS};
use second::generate::Random;
use std::process::exit;

fn main() {
    let words: Vec<String> = std::env::args().skip(1).collect();
    let number = |place: usize| words.get(place).and_then(|word| word.parse::<u64>().ok());
    let kind = KINDS
        .iter()
        .find(|kind| words.first().is_some_and(|word| word == kind.name));
    let (Some(kind), Some(times)) = (kind, number(1)) else {
        let names = KINDS.map(|kind| kind.name).join("|");
        println!("usage: compare {names} TIMES [SEED]");
        exit(2);
    };
    let mut r = Random::new(number(2).unwrap_or(1));
    let mut tally = Tally::default();
    for _ in 0..times {
        if let Err(difference) = (kind.once)(&mut r, &mut tally) {
            println!("{difference}");
            exit(1);
        }
    }
    tally.print();
    for (call, numbers) in kind.numbers {
        let missing = tally.missing(call, numbers);
        if !missing.is_empty() {
            println!("{call} never gave {missing:?}");
            exit(1);
        }
    }
}
