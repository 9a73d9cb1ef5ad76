//! `deep MINUTES [SEED]`: the kinds in turn for so long, each turn seeded anew; stops at the first difference.

use compare::{proved, Tally, KINDS};
use second::generate::Random;
use std::process::exit;
use std::time::{Duration, Instant};

fn main() {
    let word = |place: usize| {
        std::env::args()
            .nth(place)
            .and_then(|word| word.parse::<u64>().ok())
    };
    let Some(minutes) = word(1) else {
        println!("usage: deep MINUTES [SEED]");
        exit(2);
    };
    let first = word(2).unwrap_or(1);
    let end = Instant::now() + Duration::from_secs(60 * minutes);
    let mut tally = Tally::default();
    let mut turns = 0;
    while Instant::now() < end {
        turn(turns, (first << 32) + turns, &mut tally);
        turns += 1;
    }
    println!("{turns} turns from seed {first}, no difference");
    tally.print();
    println!("{} calls of the library", proved::calls_made());
}

/// Every kind that is due in a turn.
fn turn(turns: u64, seed: u64, tally: &mut Tally) {
    for kind in KINDS.iter().filter(|kind| turns.is_multiple_of(kind.every)) {
        if let Err(difference) = (kind.once)(&mut Random::new(seed), tally) {
            println!("{difference}");
            println!("turn {turns}, again with: compare {} 1 {seed}", kind.name);
            exit(1);
        }
    }
}
