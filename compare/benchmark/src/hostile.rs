//! Jobs at the limits of document 01, meant to be slow or deep.

mod bytes;
mod ground;
mod lists;
mod one_slot;
mod rows;
mod stacks;
mod stores;
mod towers;
mod turns;
mod views;
mod words;

use generator::Case;
use job::Tables;
use job::limits::{CELLS, PROGRAM_CELLS, PROGRAM_POOL, STORE_CELLS, STORE_POOL};
use job::modes::{PLAIN, STRICT};

use crate::last_proof;
use crate::lent::{Entry, WORD};

pub use stacks::{Deep, by_bytes, by_words};

/// A job with a number of steps, up to the most, in a mode, by an entry.
pub struct Hostile {
    pub name: &'static str,
    pub most: usize,
    pub mode: u32,
    pub entry: Entry,
    /// By which terms are mixed.
    pub word: u32,
    pub tables: fn(usize) -> Tables,
}

impl Hostile {
    /// The job with so many steps, and the largest store lent or that of the entry for bytes.
    pub fn case(&self, steps: usize) -> Case {
        let tables = (self.tables)(steps);
        let case = match self.entry {
            Entry::Words => with_largest_room(&tables),
            Entry::Bytes => with_bytes_room(&tables),
        };
        case.in_mode(self.mode)
    }
}

/// The last proof is asked, with the largest store.
fn with_largest_room(tables: &Tables) -> Case {
    let asked = last_proof(tables);
    Case::new(tables.words(), asked, STORE_CELLS, STORE_POOL)
}

/// The last proof is asked, with the store of the entry for bytes.
fn with_bytes_room(tables: &Tables) -> Case {
    let asked = last_proof(tables);
    Case::new(tables.words(), asked, PROGRAM_CELLS, PROGRAM_POOL)
}

/// One proof of all that there may be is the fiat below the steps.
const STEPS: usize = CELLS as usize - 1;

const fn hostile(name: &'static str, most: usize, tables: fn(usize) -> Tables) -> Hostile {
    Hostile {
        name,
        most,
        mode: PLAIN,
        entry: Entry::Words,
        word: WORD,
        tables,
    }
}

const fn strict(name: &'static str, most: usize, tables: fn(usize) -> Tables) -> Hostile {
    Hostile {
        mode: STRICT,
        ..hostile(name, most, tables)
    }
}

/// With the word that a job is aimed at.
const fn aimed(name: &'static str, most: usize, tables: fn(usize) -> Tables) -> Hostile {
    Hostile {
        word: 0,
        ..hostile(name, most, tables)
    }
}

/// By the entry for bytes.
const fn by_bytes_entry(hostile: Hostile) -> Hostile {
    Hostile {
        entry: Entry::Bytes,
        ..hostile
    }
}

/// All jobs, in the order in which they are run.
pub fn all() -> Vec<&'static Hostile> {
    let lists = [
        words::TOWERS,
        words::TURNS,
        words::ROWS,
        words::STORES,
        words::LISTS,
        bytes::BYTES,
        one_slot::TERMS_OF_ONE_SLOT,
        one_slot::TABLES_OF_ONE_SLOT,
    ];
    lists.into_iter().flatten().collect()
}
