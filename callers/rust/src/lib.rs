//! The proved checker (`include/sizercobalt.h`) as safe functions: a slice is a pointer with its length, two `&mut` do not overlap, and the call runs on a
//! thread whose stack is enough for every job. `check_bytes_here`, `check_bytes_mode_here` and `check_here` run on the caller's stack.
//!
//! Terms are looked up by an index. Which slot a term has in it depends on one word beside the job: the first slot of the lent index or, by bytes, the first word
//! of the answer's buffer, as they are before the call. Who knows that word can write a job whose terms all have one slot, which takes long. No answer and no
//! word of the store depends on it. The safe functions write a random word there; those that run on the caller's stack leave it to the caller.

use std::collections::hash_map::RandomState;
use std::hash::{BuildHasher, Hasher};
use std::thread;

/// The number of words of an answer.
pub const ANSWER: usize = 8;
/// The cells and the pool words of the store that `check_bytes` and `check_bytes_mode` have of their own.
pub const CELLS: usize = 4_096;
pub const POOL: usize = 16_384;
/// The longest job that they take.
pub const BYTES: usize = 65_536;
/// A stack that is enough for every job (README.md has what was measured).
pub const STACK: usize = 8 << 20;

/// The fewest slots that an index may have beside a store of so many cells: twice as many, or the next power of two. More are taken where they are a power of
/// two; else the number is 12.
pub const fn slots(cells: usize) -> usize {
    (2 * cells).next_power_of_two()
}

/// How a rule's fact is checked that is a bare call of a primitive whose output is a container.
#[derive(Clone, Copy, PartialEq, Eq, Debug)]
pub enum Mode {
    /// As egglog does: it passes unevaluated.
    Plain,
    /// It is evaluated under the bindings of that moment and passes where it has a value; it binds nothing.
    Strict,
}

/// The word that the entries take; they refuse others with 11.
impl From<Mode> for u32 {
    fn from(mode: Mode) -> u32 {
        match mode {
            Mode::Plain => 0,
            Mode::Strict => 1,
        }
    }
}

unsafe extern "C" {
    fn sizercobalt_check_bytes(
        job: *const u8,
        job_length: usize,
        asked: u32,
        answer: *mut u32,
        answer_length: usize,
    ) -> u32;

    fn sizercobalt_check_bytes_mode(
        job: *const u8,
        job_length: usize,
        asked: u32,
        mode: u32,
        answer: *mut u32,
        answer_length: usize,
    ) -> u32;

    fn sizercobalt_check(
        job: *const u32,
        job_length: usize,
        asked: u32,
        mode: u32,
        kinds: *mut u32,
        kinds_length: usize,
        ends: *mut u32,
        ends_length: usize,
        pool: *mut u32,
        pool_length: usize,
        index: *mut u32,
        index_length: usize,
        scratch: *mut u32,
        scratch_length: usize,
        answer: *mut u32,
        answer_length: usize,
    ) -> u32;
}

/// Runs a call on a thread with that stack.
fn on_own_stack(call: impl FnOnce() -> u32 + Send) -> u32 {
    thread::scope(|scope| {
        thread::Builder::new()
            .stack_size(STACK)
            .spawn_scoped(scope, call)
            .expect("a thread can be started")
            .join()
            .expect("the check returns")
    })
}

/// A word that nobody knows before, from the randomness of the standard library's hash maps.
fn any_word() -> u32 {
    RandomState::new().build_hasher().finish() as u32
}

/// Puts it first into an answer's buffer that is to be written.
fn with_any_word(answer: &mut [u32]) {
    if answer.len() == ANSWER {
        answer[0] = any_word();
    }
}

/// Checks proof `asked` of a job given as bytes, in mode `Plain`, with a store and an index of its own; the number, 0 where it is accepted.
///
/// # Panics
/// Where no thread can be started.
pub fn check_bytes(job: &[u8], asked: u32, answer: &mut [u32]) -> u32 {
    with_any_word(answer);
    // SAFETY: the thread has the stack.
    on_own_stack(|| unsafe { check_bytes_here(job, asked, answer) })
}

/// `check_bytes` on the caller's stack. Terms are mixed by the first word of `answer`: put a random one there before a stranger's job.
///
/// # Safety
/// `STACK` bytes of stack are left.
pub unsafe fn check_bytes_here(job: &[u8], asked: u32, answer: &mut [u32]) -> u32 {
    // SAFETY: each pointer is a slice's, with its length.
    unsafe {
        sizercobalt_check_bytes(
            job.as_ptr(),
            job.len(),
            asked,
            answer.as_mut_ptr(),
            answer.len(),
        )
    }
}

/// `check_bytes` in a mode.
///
/// # Panics
/// Where no thread can be started.
pub fn check_bytes_mode(job: &[u8], asked: u32, mode: impl Into<u32>, answer: &mut [u32]) -> u32 {
    let mode: u32 = mode.into();
    with_any_word(answer);
    // SAFETY: the thread has the stack.
    on_own_stack(|| unsafe { check_bytes_mode_here(job, asked, mode, answer) })
}

/// `check_bytes_mode` on the caller's stack. Terms are mixed by the first word of `answer`: put a random one there before a stranger's job.
///
/// # Safety
/// `STACK` bytes of stack are left.
pub unsafe fn check_bytes_mode_here(
    job: &[u8],
    asked: u32,
    mode: impl Into<u32>,
    answer: &mut [u32],
) -> u32 {
    // SAFETY: each pointer is a slice's, with its length.
    unsafe {
        sizercobalt_check_bytes_mode(
            job.as_ptr(),
            job.len(),
            asked,
            mode.into(),
            answer.as_mut_ptr(),
            answer.len(),
        )
    }
}

/// Checks proof `asked` of a job given as words in a mode, with a lent store, index and scratch; the number, 0 where it is accepted. `slots` says how long the index
/// is; what it holds makes no difference, before or afterwards.
///
/// # Panics
/// Where no thread can be started.
#[allow(clippy::too_many_arguments)]
pub fn check(
    job: &[u32],
    asked: u32,
    mode: impl Into<u32>,
    kinds: &mut [u32],
    ends: &mut [u32],
    pool: &mut [u32],
    index: &mut [u32],
    scratch: &mut [u32],
    answer: &mut [u32],
) -> u32 {
    let mode: u32 = mode.into();
    if let Some(first) = index.first_mut() {
        *first = any_word();
    }
    // SAFETY: the thread has the stack.
    on_own_stack(|| unsafe {
        check_here(job, asked, mode, kinds, ends, pool, index, scratch, answer)
    })
}

/// `check` on the caller's stack. Terms are mixed by the first slot of `index`: put a random word there before a stranger's job.
///
/// # Safety
/// `STACK` bytes of stack are left.
#[allow(clippy::too_many_arguments)]
pub unsafe fn check_here(
    job: &[u32],
    asked: u32,
    mode: impl Into<u32>,
    kinds: &mut [u32],
    ends: &mut [u32],
    pool: &mut [u32],
    index: &mut [u32],
    scratch: &mut [u32],
    answer: &mut [u32],
) -> u32 {
    // SAFETY: each pointer is a slice's, with its length.
    unsafe {
        sizercobalt_check(
            job.as_ptr(),
            job.len(),
            asked,
            mode.into(),
            kinds.as_mut_ptr(),
            kinds.len(),
            ends.as_mut_ptr(),
            ends.len(),
            pool.as_mut_ptr(),
            pool.len(),
            index.as_mut_ptr(),
            index.len(),
            scratch.as_mut_ptr(),
            scratch.len(),
            answer.as_mut_ptr(),
            answer.len(),
        )
    }
}
