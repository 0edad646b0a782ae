//! A job together with what is lent for its check.

use job::limits::{ANSWER, index_slots, scratch_words};
use job::modes::PLAIN;
use oracle::{TooManySteps, check};

use crate::dirt;

#[derive(Clone, PartialEq, Eq, Debug)]
pub struct Case {
    pub job: Vec<u32>,
    pub asked: u32,
    pub mode: u32,
    /// The lengths of the lent arrays.
    pub kinds: usize,
    pub ends: usize,
    pub pool: usize,
    /// The slots of the lent index.
    pub index: usize,
    pub scratch: usize,
    /// Decides what the words of the lent store hold before.
    pub fill: u32,
    /// Decides what the slots of the index hold before.
    pub index_fill: u32,
}

/// The answer and every word of the lent store after the check.
#[derive(Clone, PartialEq, Eq, Debug)]
pub struct Outcome {
    pub answer: [u32; ANSWER],
    pub kinds: Vec<u32>,
    pub ends: Vec<u32>,
    pub pool: Vec<u32>,
}

impl Case {
    /// A case in mode 0, with equal arrays, and as many slots and as much scratch as the check needs.
    pub fn new(job: Vec<u32>, asked: u32, cells: usize, pool: usize) -> Case {
        let proofs = job.get(10).copied().unwrap_or(0) as usize;
        Case {
            job,
            asked,
            mode: PLAIN,
            kinds: cells,
            ends: cells,
            pool,
            index: index_slots(cells),
            scratch: scratch_words(cells, proofs.min(1 << 16)),
            fill: 0,
            index_fill: 0,
        }
    }

    /// The same in another mode.
    pub fn in_mode(self, mode: u32) -> Case {
        Case { mode, ..self }
    }

    /// The same with the fewest slots that an index may have.
    pub fn with_fewest_slots(self) -> Case {
        let index = index_slots(self.kinds);
        Case { index, ..self }
    }

    fn lent(&self, array: u32, length: usize) -> Vec<u32> {
        let start = self.fill.wrapping_add(array << 20);
        (0..length as u32)
            .map(|place| start.wrapping_add(place).wrapping_mul(0x9e37_79b1))
            .collect()
    }

    pub fn lent_kinds(&self) -> Vec<u32> {
        self.lent(1, self.kinds)
    }

    pub fn lent_ends(&self) -> Vec<u32> {
        self.lent(2, self.ends)
    }

    pub fn lent_pool(&self) -> Vec<u32> {
        self.lent(3, self.pool)
    }

    pub fn lent_index(&self) -> Vec<u32> {
        dirt::slots(self.index_fill, self.index)
    }

    /// What the Rust says.
    pub fn judge(&self) -> Result<Outcome, TooManySteps> {
        let mut outcome = Outcome {
            answer: [0; ANSWER],
            kinds: self.lent_kinds(),
            ends: self.lent_ends(),
            pool: self.lent_pool(),
        };
        check(
            &self.job,
            self.asked,
            self.mode,
            &mut outcome.kinds,
            &mut outcome.ends,
            &mut outcome.pool,
            self.index,
            self.scratch,
            &mut outcome.answer,
        )?;
        Ok(outcome)
    }
}

impl Outcome {
    pub fn number(&self) -> u32 {
        self.answer[0]
    }

    pub fn terms(&self) -> usize {
        self.answer[1] as usize
    }

    /// The pool words that the store's terms take.
    pub fn pool_words(&self) -> usize {
        match self.terms() {
            0 => 0,
            terms => self.ends[terms - 1] as usize,
        }
    }
}
