//! Shim for egglog's `util`: maps, sets and fresh symbols.

mod hasher;
mod index_set;

use std::hash::BuildHasherDefault;

pub use hasher::WordHasher;
pub use index_set::{IndexSet, PoolWords, Room};
pub use std::collections::hash_map::Entry as HEntry;

pub type HashMap<K, V> = std::collections::HashMap<K, V, BuildHasherDefault<WordHasher>>;
pub type HashSet<K> = std::collections::HashSet<K, BuildHasherDefault<WordHasher>>;

/// Made by the text for printing with let bindings; terms are printed as numbers here.
pub struct SymbolGen;

impl SymbolGen {
    pub fn new(_reserved: String) -> Self {
        SymbolGen
    }
}
