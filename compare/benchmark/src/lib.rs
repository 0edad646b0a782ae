//! Ours beside the Rust on the same jobs, and ours under hostile load.

pub mod hostile;
pub mod lent;
pub mod sets;

use generator::Case;
use job::limits::{PROGRAM_CELLS, PROGRAM_POOL};
use job::{Table, Tables};

/// The last proof is asked, with the store of the host entry or, for more terms, with twice their room.
pub fn with_program_room(tables: &Tables) -> Case {
    let terms = tables.of(Table::Terms);
    let words: usize = terms.iter().map(|cell| cell.words.len()).sum();
    let cells = PROGRAM_CELLS.max(2 * terms.len());
    let pool = PROGRAM_POOL.max(2 * words);
    Case::new(tables.words(), last_proof(tables), cells, pool)
}

/// The number of the last proof.
pub fn last_proof(tables: &Tables) -> u32 {
    tables.count(Table::Proofs) - 1
}
