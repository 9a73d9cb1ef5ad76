//! Compares the proved library with the second program, call by call, and stops at the first difference, reduced.

pub mod bits;
pub mod calls;
pub mod frames;
pub mod laws;
pub mod pairs;
pub mod proved;

mod given;
mod maps;
mod programs;
mod rowcheck;
mod rowmap;
mod rows;
mod sequences;
mod tally;
mod texts;

pub use given::{hold, Given, Held};
pub use tally::Tally;

use second::generate::Random;

/// One kind of comparison.
pub struct Kind {
    pub name: &'static str,
    pub once: fn(&mut Random, &mut Tally) -> Held,
    /// A deep run does it once in so many turns; starting a program takes as long as many calls.
    pub every: u64,
    /// The numbers that its calls can give.
    pub numbers: &'static [(&'static str, &'static [u8])],
}

/// Every kind. Once of a kind is one text with all that is tried of it.
pub const KINDS: [Kind; 7] = [
    Kind {
        name: "frames",
        once: frames::once,
        every: 1,
        numbers: &[],
    },
    Kind {
        name: "texts",
        once: texts::once,
        every: 1,
        numbers: &[
            ("read", &[0, 1, 2, 3, 4, 5, 6, 7]),
            ("evaluate", &[0, 1, 2, 3, 4, 5, 6, 7, 10, 17]),
        ],
    },
    Kind {
        name: "rows",
        once: rows::once,
        every: 1,
        numbers: &[("simulate", &[0, 1, 2, 3, 5, 12, 17])],
    },
    Kind {
        name: "pairs",
        once: pairs::once,
        every: 1,
        numbers: &[("check", CHECKED), ("defended", &[0])],
    },
    Kind {
        name: "maps",
        once: maps::once,
        every: 1,
        numbers: &[("map", &[0, 1, 2, 3, 4, 5, 6, 7, 8, 9, 10])],
    },
    Kind {
        name: "rowcheck",
        once: rowcheck::once,
        every: 50,
        numbers: &[("rowcheck", CHECKED)],
    },
    Kind {
        name: "rowmap",
        once: rowmap::once,
        every: 50,
        numbers: &[("rowmap", &[0, 1, 2, 3, 4, 5, 6, 7, 8, 9])],
    },
];

/// The numbers of a check, by the call and by the program.
const CHECKED: &[u8] = &[0, 1, 2, 3, 4, 5, 6, 7, 11, 12, 13, 14, 15, 16];
