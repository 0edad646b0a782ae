//! A call of an entry, and what the Rust and the library make of it.

use generator::{Case, dirt};
use job::limits::ANSWER;
use job::modes::PLAIN;
use oracle::TooManySteps;

use crate::variants::{Source, Variant};

/// What an entry is handed to read, and the lengths of what is lent.
#[derive(Clone, Debug)]
pub enum Input {
    Words(Case),
    /// Without a mode the host entry that takes none.
    Bytes {
        job: Vec<u8>,
        asked: u32,
        mode: Option<u32>,
    },
}

/// What a call is held to.
#[derive(Clone, Copy, PartialEq, Eq, Debug)]
pub enum Judge {
    Rust,
    /// The library on the same call in mode 0.
    Mode0,
}

/// A call of an entry.
#[derive(Clone, Debug)]
pub struct Call {
    pub source: Source,
    pub variant: Variant,
    pub judge: Judge,
    pub input: Input,
    /// The length of the answer's buffer.
    pub answer: usize,
    /// Each decides what scratch and the index hold before; the library is called once for each.
    pub scratches: Vec<u32>,
}

/// What a call returns and leaves.
#[derive(Clone, PartialEq, Eq, Debug)]
pub struct Left {
    pub number: u32,
    pub answer: Vec<u32>,
    pub kinds: Vec<u32>,
    pub ends: Vec<u32>,
    pub pool: Vec<u32>,
}

impl Call {
    /// What the index of a case holds before, as a scratch number and the case decide.
    pub fn lent_index(case: &Case, scratch: u32) -> Vec<u32> {
        dirt::slots(case.index_fill.wrapping_add(scratch), case.index)
    }

    /// What the answer's buffer holds before; where it stays unwritten, the same for each scratch.
    fn lent_answer(&self, scratch: u32) -> Vec<u32> {
        match self.answer {
            ANSWER => dirt::words(scratch, ANSWER),
            other => dirt::words(self.scratches[0], other),
        }
    }

    /// The word by which the library mixes terms: the index's first, or the answer's.
    pub fn word(&self, scratch: u32) -> u32 {
        let lent = match &self.input {
            Input::Words(case) => Call::lent_index(case, scratch),
            Input::Bytes { .. } => self.lent_answer(scratch),
        };
        lent.first().copied().unwrap_or(0)
    }

    /// What is lent, before the call.
    fn lent(&self, scratch: u32) -> Left {
        let store = match &self.input {
            Input::Words(case) => [case.lent_kinds(), case.lent_ends(), case.lent_pool()],
            Input::Bytes { .. } => [const { Vec::new() }; 3],
        };
        let [kinds, ends, pool] = store;
        Left {
            number: 0,
            answer: self.lent_answer(scratch),
            kinds,
            ends,
            pool,
        }
    }

    /// What the Rust says.
    pub fn by_rust(&self) -> Result<Left, TooManySteps> {
        let mut left = self.lent(self.scratches[0]);
        left.number = match &self.input {
            Input::Words(case) => oracle::check(
                &case.job,
                case.asked,
                case.mode,
                &mut left.kinds,
                &mut left.ends,
                &mut left.pool,
                case.index,
                case.scratch,
                &mut left.answer,
            )?,
            Input::Bytes { job, asked, mode } => {
                let mode = mode.unwrap_or(PLAIN);
                oracle::check_bytes_mode(job, *asked, mode, &mut left.answer)?
            }
        };
        Ok(left)
    }

    /// What the proved library says, with scratch and the index as the number decides.
    pub fn by_library(&self, scratch: u32) -> Left {
        let mut left = self.lent(scratch);
        left.number = match &self.input {
            // SAFETY, here and below: the runs have threads with that stack.
            Input::Words(case) => unsafe {
                sizercobalt::check_here(
                    &case.job,
                    case.asked,
                    case.mode,
                    &mut left.kinds,
                    &mut left.ends,
                    &mut left.pool,
                    &mut Call::lent_index(case, scratch),
                    &mut dirt::words(scratch, case.scratch),
                    &mut left.answer,
                )
            },
            Input::Bytes { job, asked, mode } => unsafe {
                match mode {
                    Some(mode) => {
                        sizercobalt::check_bytes_mode_here(job, *asked, *mode, &mut left.answer)
                    }
                    None => sizercobalt::check_bytes_here(job, *asked, &mut left.answer),
                }
            },
        };
        left
    }

    pub fn mode(&self) -> u32 {
        match &self.input {
            Input::Words(case) => case.mode,
            Input::Bytes { mode, .. } => mode.unwrap_or(PLAIN),
        }
    }

    /// The same call in another mode.
    pub fn in_mode(&self, other: u32) -> Call {
        let mut call = self.clone();
        match &mut call.input {
            Input::Words(case) => case.mode = other,
            Input::Bytes { mode, .. } => *mode = Some(other),
        }
        call
    }
}
