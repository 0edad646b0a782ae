//! Container side conditions: facts whose premises no check follows.

use crate::layout::{Cell, Job, Table};
use crate::primitives;

/// A side of the fact is a call of a primitive whose output is a container; needs formed ends.
pub fn is_condition(job: &Job, fact: u32) -> bool {
    let sides = cell_at(job, Table::Facts, fact).map_or(&[][..], |cell| cell.words);
    sides.iter().any(|&side| is_container_call(job, side))
}

fn is_container_call(job: &Job, expression: u32) -> bool {
    let container = || {
        let call = cell_at(job, Table::Expressions, expression)?;
        let &primitive = call.words.first().filter(|_| call.kind == 4)?;
        let cell = cell_at(job, Table::Primitives, primitive)?;
        Some(primitives::gives_containers(cell.kind))
    };
    container() == Some(true)
}

fn cell_at<'a>(job: &Job<'a>, table: Table, number: u32) -> Option<Cell<'a>> {
    let number = number as usize;
    (number < job.count(table)).then(|| job.cell(table, number))
}
