//! The largest sizes of document 01.

/// Sizes at the head of a job.
pub const SIZES: usize = 12;
/// Words of an answer.
pub const ANSWER: usize = 8;

pub const TERMS: u32 = 16_384;
/// Expressions, facts, actions, functions, primitives, rows, normalisers, rules and proofs, each.
pub const CELLS: u32 = 4_096;
pub const GLOBALS: u32 = 256;
pub const POOL: u32 = 131_072;

/// Children of a term, arguments of a call or row.
pub const OPERANDS: usize = 16;
pub const FACTS: usize = 16;
pub const ACTIONS: usize = 64;
pub const PAIRS: usize = 32;
pub const PREMISES: usize = 4_096;

/// The largest working store.
pub const STORE_CELLS: usize = 65_536;
pub const STORE_POOL: usize = 1_048_576;

/// The program and the host entry.
pub const PROGRAM_BYTES: usize = 65_536;
pub const PROGRAM_CELLS: usize = 4_096;
pub const PROGRAM_POOL: usize = 16_384;
pub const PROGRAM_INDEX: usize = 8_192;

/// The scratch words a check needs for C store cells and J proofs.
pub fn scratch_words(cells: usize, proofs: usize) -> usize {
    2 * (cells + proofs)
}

/// An index may have so many slots beside C store cells: a power of two, twice the cells at least.
pub fn index_fits(slots: usize, cells: usize) -> bool {
    slots.is_power_of_two() && slots >= 2 * cells
}

/// The fewest slots that fit.
pub fn index_slots(cells: usize) -> usize {
    (2 * cells).next_power_of_two()
}
