//! The checking program on the pairs that check is given.

use crate::given::{hold, Held};
use crate::tally::Tally;
use crate::{pairs, programs};
use second::generate::Random;

pub fn once(r: &mut Random, tally: &mut Tally) -> Held {
    hold(tally, "rowcheck", programs::rowcheck, &pairs::made(r))
}
