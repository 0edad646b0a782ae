//! Sums of integers: computed by the check, or looked up in rows.

use generator::extremes::count_steps;
use job::Tables;
use job::primitives::SUM;

/// A primitive whose values are rows.
const LOOKED_UP: u32 = 1;

pub fn computed(length: usize) -> Tables {
    count_steps(SUM, length)
}

/// The same steps, each sum by a row of its own.
pub fn looked_up(length: u32) -> Tables {
    let mut tables = count_steps(LOOKED_UP, length as usize);
    // Term n is the integer n + 1, and term 0 is added.
    for term in 0..=length {
        tables.row(0, term + 1, &[term, 0]);
    }
    tables
}
