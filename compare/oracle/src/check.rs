//! One function from a job to the eight words and the words of the store.

use std::cell::Cell;
use std::thread;
use std::time::{Duration, Instant};

use job::limits;
use job::{Job, Lent, Table, modes, refusal};

use crate::answer::{self, Answer};
use crate::panics;
use crate::program;
use crate::proofs::proof_format::ProofStore;
use crate::store;
use crate::strict;
use crate::util::Room;

/// The text would take more steps than are waited for; there is no answer.
#[derive(Clone, Copy, PartialEq, Eq, Debug)]
pub struct TooManySteps;

/// Jobs with more proofs or expressions than this run on a stack of their own.
const SHALLOW: usize = 64;
const DEEP_STACK: usize = 512 << 20;

/// The check with lent arrays, an index of so many slots and so many words of scratch, in a mode. Writes
/// the answer and, on 0 and from 20 up, the store's words.
#[allow(clippy::too_many_arguments)]
pub fn check(
    job: &[u32],
    asked: u32,
    mode: u32,
    kinds: &mut [u32],
    ends: &mut [u32],
    pool: &mut [u32],
    index: usize,
    scratch: usize,
    answer: &mut [u32],
) -> Result<u32, TooManySteps> {
    let mut run = || check_here(job, asked, mode, kinds, ends, pool, index, scratch, answer);
    let (number, _) = match is_shallow(job) {
        true => run()?,
        false => on_deep_stack(run)?,
    };
    Ok(number)
}

/// The same on the caller's stack, and what `check_proof` took of the time.
#[allow(clippy::too_many_arguments)]
pub fn check_here(
    job: &[u32],
    asked: u32,
    mode: u32,
    kinds: &mut [u32],
    ends: &mut [u32],
    pool: &mut [u32],
    index: usize,
    scratch: usize,
    answer: &mut [u32],
) -> Result<(u32, Duration), TooManySteps> {
    if answer.len() != limits::ANSWER {
        return Ok((10, Duration::ZERO));
    }
    let lent = Lent {
        kinds: kinds.len(),
        ends: ends.len(),
        pool: pool.len(),
        index,
        scratch,
    };
    let (words, took) = match refusal(job, asked, mode, &lent) {
        Some(refusal) => {
            let words = answer::words(refusal.number, 0, &[refusal.cell]);
            (words, Duration::ZERO)
        }
        None => judge_in_mode(job, asked, mode, kinds, ends, pool)?,
    };
    answer.copy_from_slice(&words);
    Ok((words[0], took))
}

/// The host entry: a job as bytes, with the program's own store and index, in mode 0.
pub fn check_bytes(bytes: &[u8], asked: u32, answer: &mut [u32]) -> Result<u32, TooManySteps> {
    check_bytes_mode(bytes, asked, modes::PLAIN, answer)
}

/// The host entry that takes a mode.
pub fn check_bytes_mode(
    bytes: &[u8],
    asked: u32,
    mode: u32,
    answer: &mut [u32],
) -> Result<u32, TooManySteps> {
    if answer.len() != limits::ANSWER {
        return Ok(10);
    }
    if bytes.len() > limits::PROGRAM_BYTES || !bytes.len().is_multiple_of(4) {
        answer.copy_from_slice(&answer::words(1, 0, &[]));
        return Ok(1);
    }
    let job: Vec<u32> = bytes
        .chunks(4)
        .map(|word| u32::from_le_bytes(word.try_into().expect("four bytes")))
        .collect();
    let mut kinds = vec![0; limits::PROGRAM_CELLS];
    let mut ends = vec![0; limits::PROGRAM_CELLS];
    let mut pool = vec![0; limits::PROGRAM_POOL];
    let scratch = limits::scratch_words(limits::PROGRAM_CELLS, limits::CELLS as usize);
    check(
        &job,
        asked,
        mode,
        &mut kinds,
        &mut ends,
        &mut pool,
        limits::PROGRAM_INDEX,
        scratch,
        answer,
    )
}

/// The text recurses as deep as proofs, expressions and terms go: few enough for any stack.
fn is_shallow(words: &[u32]) -> bool {
    Job::read(words).is_none_or(|job| {
        job.count(Table::Proofs) <= SHALLOW
            && job.count(Table::Expressions) <= SHALLOW
            && job.count(Table::Terms) <= 8 * SHALLOW
    })
}

thread_local! {
    /// This thread's stack is large enough for any job.
    static IS_DEEP: Cell<bool> = const { Cell::new(false) };
}

/// Runs on a thread whose stack is large enough for any job: this one, if it is such a thread.
pub fn on_deep_stack<R: Send>(run: impl FnOnce() -> R + Send) -> R {
    if IS_DEEP.get() {
        return run();
    }
    thread::scope(|scope| {
        thread::Builder::new()
            .stack_size(DEEP_STACK)
            .spawn_scoped(scope, || {
                IS_DEEP.set(true);
                run()
            })
            .expect("a thread")
            .join()
            .expect("a judge that returns")
    })
}

/// Judges a job that passed the load checks; in strict mode by what it is rewritten to.
fn judge_in_mode(
    words: &[u32],
    asked: u32,
    mode: u32,
    kinds: &mut [u32],
    ends: &mut [u32],
    pool: &mut [u32],
) -> Result<(Answer, Duration), TooManySteps> {
    let rewritten = match mode {
        modes::STRICT => strict::rewritten(words),
        _ => None,
    };
    let words = rewritten.as_deref().unwrap_or(words);
    let job = Job::read(words).expect("a job that passed the load checks");
    judge(&job, asked, kinds, ends, pool)
}

/// Runs `check_proof`; what it took.
fn judge(
    job: &Job,
    asked: u32,
    kinds: &mut [u32],
    ends: &mut [u32],
    pool: &mut [u32],
) -> Result<(Answer, Duration), TooManySteps> {
    let validators = program::validators(job);
    let commands = program::commands(job, &validators)?;
    let room = Room {
        cells: kinds.len(),
        pool: pool.len(),
    };
    let mut proofs: ProofStore = program::proof_store(job, &validators, room);
    let started = Instant::now();
    let result = panics::catch(|| proofs.check_proof(program::proof_id(asked), &commands));
    let took = started.elapsed();
    let terms = proofs.term_dag().size();
    let words = match result {
        Ok(Ok(proved)) => answer::accepted(job, asked, &proved, terms),
        Ok(Err(error)) => answer::refused(&error, terms),
        Err(unwound) => answer::unwound(unwound, terms).ok_or(TooManySteps)?,
    };
    store::write(proofs.term_dag(), kinds, ends, pool);
    Ok((words, took))
}
