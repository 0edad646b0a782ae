//! How much is lent: ample, just enough, one short, or what 10 refuses.

use job::limits;
use job::{Job, Table};

use crate::case::Case;
use crate::random::Random;

/// The terms and the pool words that a job brings along.
fn own_room(words: &[u32]) -> (usize, usize) {
    match Job::read(words) {
        Some(job) if job.sizes.within_limits() && job.ends_formed() => {
            (job.count(Table::Terms), job.term_words())
        }
        _ => (0, 0),
    }
}

/// A case with more room than the check takes.
pub fn ample(job: Vec<u32>, asked: u32) -> Case {
    let (terms, pool) = own_room(&job);
    Case::new(job, asked, terms + 900, pool + 4_000)
}

/// A case whose room is chosen with regard to what the check takes in this mode.
pub fn chosen(job: Vec<u32>, asked: u32, mode: u32, random: &mut Random) -> Case {
    let (terms, pool) = own_room(&job);
    let case = ample(job, asked).in_mode(mode);
    let (cells_taken, pool_taken) = match case.judge() {
        Ok(outcome) if outcome.number() == 0 || outcome.number() >= 20 => {
            (outcome.terms(), outcome.pool_words())
        }
        _ => (terms, pool),
    };
    let (cells, pool) = match random.below(6) {
        0 => (cells_taken, pool_taken),
        1 => (cells_taken.saturating_sub(1), pool_taken + 9),
        2 => (cells_taken + 1, pool_taken.saturating_sub(1)),
        3 => (random.between(terms, cells_taken), pool_taken),
        4 => (cells_taken, random.between(pool, pool_taken)),
        _ => (cells_taken.saturating_sub(1), pool_taken.saturating_sub(1)),
    };
    Case::new(case.job, asked, cells, pool).in_mode(mode)
}

/// A case that 10 refuses, where nothing lower applies.
pub fn refused(job: Vec<u32>, asked: u32, random: &mut Random) -> Case {
    let (terms, pool) = own_room(&job);
    let mut case = Case::new(job, asked, terms + 3, pool + 9);
    match random.below(60) {
        0 => case = Case::new(case.job, asked, limits::STORE_CELLS + 1, pool),
        1 => case.pool = limits::STORE_POOL + 1,
        2 => case = Case::new(case.job, asked, limits::STORE_CELLS, limits::STORE_POOL),
        3..=12 => case.ends += 1,
        13..=22 => case.ends -= 1,
        23..=34 => case.scratch -= 1,
        35..=46 => case.pool = pool.saturating_sub(1),
        _ => {
            case.kinds = terms.saturating_sub(1);
            case.ends = case.kinds;
        }
    }
    case
}
