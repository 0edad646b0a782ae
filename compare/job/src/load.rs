//! The refusals 1 to 10, from document 01 alone, 11, from request Q-1, and 12, from request Q-4.

mod duplicates;
mod forms;
mod references;
mod validators;

use crate::layout::{Job, Table};
use crate::{limits, modes};

/// The lengths of what the caller lends.
#[derive(Clone, Copy, PartialEq, Eq, Debug)]
pub struct Lent {
    pub kinds: usize,
    pub ends: usize,
    pub pool: usize,
    /// Slots.
    pub index: usize,
    pub scratch: usize,
}

/// A number below 20 and its field: a cell's number over all tables, or 0.
#[derive(Clone, Copy, PartialEq, Eq, Debug)]
pub struct Refusal {
    pub number: u32,
    pub cell: u32,
}

impl Refusal {
    fn plain(number: u32) -> Option<Refusal> {
        Some(Refusal { number, cell: 0 })
    }
}

/// The lowest number that applies among 1 to 10, if any; 11 is looked for right after 3, 12 last.
pub fn refusal(words: &[u32], asked: u32, mode: u32, lent: &Lent) -> Option<Refusal> {
    let Some(job) = Job::read(words) else {
        return Refusal::plain(1);
    };
    if !job.sizes.within_limits() {
        return Refusal::plain(2);
    }
    if asked >= job.sizes.count(Table::Proofs) {
        return Refusal::plain(3);
    }
    if !modes::known(mode) {
        return Refusal::plain(11);
    }
    if !job.ends_formed() {
        return Refusal::plain(5);
    }
    cell_refusal(&job)
        .or_else(|| lent_refusal(&job, lent))
        .or_else(|| index_refusal(lent))
}

/// 6 to 9: each over all cells before the next; the least cell is the field.
fn cell_refusal(job: &Job) -> Option<Refusal> {
    least_cell(job, 6, forms::malformed)
        .or_else(|| least_cell(job, 7, references::out_of_range))
        .or_else(|| least_cell(job, 8, validators::looks_nothing_up))
        .or_else(|| {
            duplicates::least_cell(job).map(|cell| Refusal {
                number: 9,
                cell: cell as u32,
            })
        })
}

/// The first cell over all tables of which the test is true.
fn least_cell(
    job: &Job,
    number: u32,
    test: fn(job: &Job, table: Table, number: usize) -> bool,
) -> Option<Refusal> {
    for table in Table::ALL {
        for cell in 0..job.count(table) {
            if test(job, table, cell) {
                return Some(Refusal {
                    number,
                    cell: job.global_number(table, cell) as u32,
                });
            }
        }
    }
    None
}

/// 10: the lent arrays are too short, too long or unequal.
fn lent_refusal(job: &Job, lent: &Lent) -> Option<Refusal> {
    let cells = lent.kinds;
    let fits = lent.kinds == lent.ends
        && cells >= job.count(Table::Terms)
        && cells <= limits::STORE_CELLS
        && lent.pool >= job.term_words()
        && lent.pool <= limits::STORE_POOL
        && lent.scratch >= limits::scratch_words(cells, job.count(Table::Proofs));
    if fits { None } else { Refusal::plain(10) }
}

/// 12: the index has too few slots for the lent cells, or no power of two.
fn index_refusal(lent: &Lent) -> Option<Refusal> {
    match limits::index_fits(lent.index, lent.kinds) {
        true => None,
        false => Refusal::plain(12),
    }
}
