//! The first inputs: pairs, mapped and from another producer, good and damaged.

use crate::input::any_front;
use compare::pairs;
use second::generate::Random;
use std::fs;

const COUNT: usize = 5000;

/// Writes them into a folder, one a file.
pub fn write(folder: &str, seed: u64) -> std::io::Result<()> {
    let r = &mut Random::new(seed);
    fs::create_dir_all(folder)?;
    for place in 0..COUNT {
        // Some of the library is reached by many gates alone.
        let most_gates = if r.once_in(5) { 60 } else { 10 };
        let mut input = any_front(r);
        input.extend(pairs::pair(r, most_gates).texts.concat());
        fs::write(format!("{folder}/seed-{place}"), input)?;
    }
    Ok(())
}
