//! 8: a row or normaliser on a primitive that looks nothing up.

use crate::layout::{Job, Table};
use crate::primitives;

/// The cell names a primitive that has no validator, or whose validator computes.
pub fn looks_nothing_up(job: &Job, table: Table, number: usize) -> bool {
    let words = job.cell(table, number).words;
    let primitive = match table {
        Table::Rows => words[0],
        Table::Normalisers => words[1],
        _ => return false,
    };
    let kind = job.cell(Table::Primitives, primitive as usize).kind;
    !primitives::looks_rows_up(kind)
}
