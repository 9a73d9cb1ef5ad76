//! The mapping program on the netlists that map is given, and the checking program on what it prints.

use crate::given::{hold, Given, Held};
use crate::tally::Tally;
use crate::{maps, programs};
use second::generate::Random;

pub fn once(r: &mut Random, tally: &mut Tally) -> Held {
    let (text, least) = maps::made(r);
    let other = r.pick(&[1, least - 1, (least + 1).min(256), 256]);
    let row = other.filter(|_| r.once_in(4)).unwrap_or(least);
    let given = Given {
        texts: vec![format!("0F{:02X}\n", row - 1).into_bytes(), text],
        ..Given::default()
    };
    hold(tally, "rowmap", programs::rowmap, &given)?;
    hold(tally, "printed passes", programs::printed_passes, &given)
}
