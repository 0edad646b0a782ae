//! Shim for `IndexSet`: a set in the order of insertion. It also keeps the two things that are
//! ours and not egglog's: the room of the lent store (53), and a bound on the steps.

use std::cell::Cell;
use std::collections::HashMap;
use std::hash::{BuildHasherDefault, Hash};
use std::ops::Index;

use super::WordHasher;
use crate::panics;

/// How many pool words an item takes in the lent store.
pub trait PoolWords {
    fn pool_words(&self) -> usize;
}

/// The room of the lent store.
#[derive(Clone, Copy, Debug)]
pub struct Room {
    pub cells: usize,
    pub pool: usize,
}

impl Default for Room {
    fn default() -> Self {
        Room {
            cells: usize::MAX,
            pool: usize::MAX,
        }
    }
}

#[derive(Clone, Debug)]
pub struct IndexSet<T> {
    items: Vec<T>,
    indices: HashMap<T, usize, BuildHasherDefault<WordHasher>>,
    room: Room,
    pool_words: usize,
    steps: Cell<u64>,
}

impl<T> Default for IndexSet<T> {
    fn default() -> Self {
        IndexSet {
            items: Vec::new(),
            indices: HashMap::default(),
            room: Room::default(),
            pool_words: 0,
            steps: Cell::new(0),
        }
    }
}

impl<T: PartialEq> PartialEq for IndexSet<T> {
    fn eq(&self, other: &Self) -> bool {
        self.items == other.items
    }
}

impl<T: Eq> Eq for IndexSet<T> {}

impl<T> IndexSet<T> {
    pub fn set_room(&mut self, room: Room) {
        self.room = room;
    }

    pub fn len(&self) -> usize {
        self.items.len()
    }

    pub fn is_empty(&self) -> bool {
        self.items.is_empty()
    }

    pub fn get_index(&self, index: usize) -> Option<&T> {
        self.count_step();
        self.items.get(index)
    }

    fn count_step(&self) {
        self.steps.set(self.steps.get() + 1);
        if self.steps.get() > panics::MOST_STEPS {
            panics::too_many_steps();
        }
    }
}

impl<T: Clone + Eq + Hash + PoolWords> IndexSet<T> {
    pub fn get_index_of(&self, item: &T) -> Option<usize> {
        self.count_step();
        self.indices.get(item).copied()
    }

    /// Appends an item that is not there yet; unwinds with 53 where there is no room for it.
    pub fn insert(&mut self, item: T) -> bool {
        if self.indices.contains_key(&item) {
            return false;
        }
        let words = item.pool_words();
        if self.items.len() >= self.room.cells || words > self.room.pool - self.pool_words {
            panics::store_full(self.pool_words);
        }
        self.pool_words += words;
        self.indices.insert(item.clone(), self.items.len());
        self.items.push(item);
        true
    }
}

impl<T> Index<usize> for IndexSet<T> {
    type Output = T;

    fn index(&self, index: usize) -> &T {
        &self.items[index]
    }
}
