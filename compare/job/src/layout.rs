//! Where the words of a job stand.

use crate::limits;

/// The ten tables, in the order of their cells.
#[derive(Clone, Copy, PartialEq, Eq, Debug)]
pub enum Table {
    Terms,
    Expressions,
    Facts,
    Actions,
    Functions,
    Primitives,
    Rows,
    Normalisers,
    Rules,
    Proofs,
}

impl Table {
    pub const ALL: [Table; 10] = [
        Table::Terms,
        Table::Expressions,
        Table::Facts,
        Table::Actions,
        Table::Functions,
        Table::Primitives,
        Table::Rows,
        Table::Normalisers,
        Table::Rules,
        Table::Proofs,
    ];

    /// The place of this table's size among the twelve; G stands between actions and functions.
    pub fn size_index(self) -> usize {
        let order = self as usize;
        if order <= Table::Actions as usize {
            order
        } else {
            order + 1
        }
    }

    /// The largest number of cells.
    pub fn largest(self) -> u32 {
        match self {
            Table::Terms => limits::TERMS,
            _ => limits::CELLS,
        }
    }
}

const GLOBALS_INDEX: usize = 4;
const POOL_INDEX: usize = 11;

/// The twelve sizes.
#[derive(Clone, Copy, PartialEq, Eq, Debug)]
pub struct Sizes(pub [u32; limits::SIZES]);

impl Sizes {
    /// The first twelve words, if there are so many.
    pub fn read(words: &[u32]) -> Option<Sizes> {
        let head = words.get(..limits::SIZES)?;
        Some(Sizes(head.try_into().expect("twelve words")))
    }

    pub fn count(&self, table: Table) -> u32 {
        self.0[table.size_index()]
    }

    pub fn globals(&self) -> u32 {
        self.0[GLOBALS_INDEX]
    }

    pub fn pool(&self) -> u32 {
        self.0[POOL_INDEX]
    }

    /// The cells of all tables.
    pub fn cells(&self) -> u64 {
        Table::ALL
            .iter()
            .map(|&table| u64::from(self.count(table)))
            .sum()
    }

    /// The cells of the tables before this one.
    pub fn cells_before(&self, table: Table) -> u64 {
        Table::ALL
            .iter()
            .take(table as usize)
            .map(|&before| u64::from(self.count(before)))
            .sum()
    }

    /// The length in words of a job with these sizes.
    pub fn job_words(&self) -> u64 {
        limits::SIZES as u64 + 2 * self.cells() + u64::from(self.pool())
    }

    /// No size is above its largest.
    pub fn within_limits(&self) -> bool {
        let tables = Table::ALL
            .iter()
            .all(|&table| self.count(table) <= table.largest());
        tables
            && self.globals() <= limits::GLOBALS
            && self.globals() <= self.count(Table::Actions)
            && self.pool() <= limits::POOL
    }
}

/// One cell: its kind and the pool words that it owns.
#[derive(Clone, Copy, PartialEq, Eq, Debug)]
pub struct Cell<'a> {
    pub kind: u32,
    pub words: &'a [u32],
}

/// A job whose length agrees with its sizes.
#[derive(Clone, Copy, Debug)]
pub struct Job<'a> {
    pub sizes: Sizes,
    kinds: &'a [u32],
    ends: &'a [u32],
    pool: &'a [u32],
}

impl<'a> Job<'a> {
    /// `None` where the length differs from the sizes.
    pub fn read(words: &'a [u32]) -> Option<Job<'a>> {
        let sizes = Sizes::read(words)?;
        if sizes.job_words() != words.len() as u64 {
            return None;
        }
        let cells = sizes.cells() as usize;
        let (kinds, rest) = words[limits::SIZES..].split_at(cells);
        let (ends, pool) = rest.split_at(cells);
        Some(Job {
            sizes,
            kinds,
            ends,
            pool,
        })
    }

    /// Ends never fall and the last one is P.
    pub fn ends_formed(&self) -> bool {
        let rising = self.ends.windows(2).all(|pair| pair[0] <= pair[1]);
        rising && self.ends.last().copied().unwrap_or(0) == self.sizes.pool()
    }

    pub fn count(&self, table: Table) -> usize {
        self.sizes.count(table) as usize
    }

    /// The number over all tables of a table's cell.
    pub fn global_number(&self, table: Table, number: usize) -> usize {
        self.sizes.cells_before(table) as usize + number
    }

    /// A cell by its number in its own table; needs formed ends.
    pub fn cell(&self, table: Table, number: usize) -> Cell<'a> {
        assert!(number < self.count(table));
        let index = self.global_number(table, number);
        let start = match index {
            0 => 0,
            _ => self.ends[index - 1] as usize,
        };
        Cell {
            kind: self.kinds[index],
            words: &self.pool[start..self.ends[index] as usize],
        }
    }

    /// The cells of one table, in order.
    pub fn cells(&self, table: Table) -> impl Iterator<Item = Cell<'a>> + use<'a> {
        let job = *self;
        (0..job.count(table)).map(move |number| job.cell(table, number))
    }

    /// The pool words of all terms.
    pub fn term_words(&self) -> usize {
        match self.count(Table::Terms) {
            0 => 0,
            terms => self.ends[terms - 1] as usize,
        }
    }
}
