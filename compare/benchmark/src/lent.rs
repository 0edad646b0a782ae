//! What is lent for a case, and its check by ours and by the Rust.

use std::time::Duration;

use generator::Case;
use job::limits::ANSWER;

/// The two entries.
#[derive(Clone, Copy, PartialEq, Eq, Debug)]
pub enum Entry {
    /// A job as words, with a lent store.
    Words,
    /// A job as bytes, with the entry's own store.
    Bytes,
}

/// By which terms are mixed where nothing is said of it.
pub const WORD: u32 = 0x5a17_c0ba;

/// A case's arrays, lent to one check after another, and the answer.
pub struct Lent<'a> {
    case: &'a Case,
    bytes: Vec<u8>,
    /// Stands first in the index, or in the answer's buffer, before each check by ours.
    word: u32,
    kinds: Vec<u32>,
    ends: Vec<u32>,
    pool: Vec<u32>,
    index: Vec<u32>,
    scratch: Vec<u32>,
    pub answer: [u32; ANSWER],
}

impl<'a> Lent<'a> {
    pub fn new(case: &'a Case) -> Lent<'a> {
        Lent::with_word(case, WORD)
    }

    pub fn with_word(case: &'a Case, word: u32) -> Lent<'a> {
        Lent {
            case,
            bytes: tools::to_bytes(&case.job),
            word,
            kinds: case.lent_kinds(),
            ends: case.lent_ends(),
            pool: case.lent_pool(),
            index: case.lent_index(),
            scratch: vec![0; case.scratch],
            answer: [0; ANSWER],
        }
    }

    /// From the words to the answer, by ours.
    pub fn ours(&mut self, entry: Entry) {
        match entry {
            Entry::Words => self.index[0] = self.word,
            Entry::Bytes => self.answer[0] = self.word,
        }
        match entry {
            // SAFETY, here and below: the main thread and those of the tests have 8 MiB; with less, as `hostile --stacks` tries, the process ends.
            Entry::Words => unsafe {
                sizercobalt::check_here(
                    &self.case.job,
                    self.case.asked,
                    self.case.mode,
                    &mut self.kinds,
                    &mut self.ends,
                    &mut self.pool,
                    &mut self.index,
                    &mut self.scratch,
                    &mut self.answer,
                )
            },
            Entry::Bytes => unsafe {
                let Case { asked, mode, .. } = *self.case;
                sizercobalt::check_bytes_mode_here(&self.bytes, asked, mode, &mut self.answer)
            },
        };
    }

    /// From the words to the answer, by the Rust.
    pub fn rust(&mut self, entry: Entry) {
        match entry {
            Entry::Words => {
                self.check_proof();
            }
            Entry::Bytes => {
                let Case { asked, mode, .. } = *self.case;
                oracle::check_bytes_mode(&self.bytes, asked, mode, &mut self.answer)
                    .expect("few steps");
            }
        }
    }

    /// The same from words, on this stack: what `check_proof` took of the time.
    pub fn check_proof(&mut self) -> Duration {
        let checked = oracle::check_here(
            &self.case.job,
            self.case.asked,
            self.case.mode,
            &mut self.kinds,
            &mut self.ends,
            &mut self.pool,
            self.case.index,
            self.case.scratch,
            &mut self.answer,
        );
        checked.expect("few steps").1
    }
}
