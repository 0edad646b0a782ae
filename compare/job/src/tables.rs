//! A job as ten lists of cells, to be written out as words.

use crate::layout::{Job, Table};
use crate::limits;

#[derive(Clone, PartialEq, Eq, Debug)]
pub struct OwnedCell {
    pub kind: u32,
    pub words: Vec<u32>,
}

#[derive(Clone, Default, PartialEq, Eq, Debug)]
pub struct Tables {
    cells: [Vec<OwnedCell>; 10],
    /// G: how many of the first actions are global.
    pub globals: u32,
}

impl Tables {
    /// Takes a job with formed ends apart.
    pub fn read(words: &[u32]) -> Option<Tables> {
        let job = Job::read(words)?;
        if !job.ends_formed() {
            return None;
        }
        let mut tables = Tables {
            globals: job.sizes.globals(),
            ..Tables::default()
        };
        for table in Table::ALL {
            for cell in job.cells(table) {
                tables.push(table, cell.kind, cell.words);
            }
        }
        Some(tables)
    }

    /// Appends a cell and gives its number.
    pub fn push(&mut self, table: Table, kind: u32, words: &[u32]) -> u32 {
        let cells = &mut self.cells[table as usize];
        cells.push(OwnedCell {
            kind,
            words: words.to_vec(),
        });
        cells.len() as u32 - 1
    }

    pub fn of(&self, table: Table) -> &Vec<OwnedCell> {
        &self.cells[table as usize]
    }

    pub fn of_mut(&mut self, table: Table) -> &mut Vec<OwnedCell> {
        &mut self.cells[table as usize]
    }

    pub fn count(&self, table: Table) -> u32 {
        self.of(table).len() as u32
    }

    /// The job's words.
    pub fn words(&self) -> Vec<u32> {
        let all: Vec<&OwnedCell> = self.cells.iter().flatten().collect();
        let pool: usize = all.iter().map(|cell| cell.words.len()).sum();
        let mut words = vec![0; limits::SIZES];
        for table in Table::ALL {
            words[table.size_index()] = self.count(table);
        }
        words[4] = self.globals;
        words[11] = pool as u32;
        words.extend(all.iter().map(|cell| cell.kind));
        let mut end = 0;
        for cell in &all {
            end += cell.words.len() as u32;
            words.push(end);
        }
        for cell in &all {
            words.extend(&cell.words);
        }
        words
    }
}
