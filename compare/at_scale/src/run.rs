//! Compares the calls of a seed, those of all its cases, and of a range of seeds on all cores.

use std::fmt;
use std::sync::atomic::{AtomicU64, Ordering};
use std::thread;

use job::modes::PLAIN;
use oracle::on_deep_stack;

use crate::call::{Call, Judge, Left};
use crate::difference::{Difference, difference};
use crate::tally::Tally;
use crate::variants::{Source, Variant, calls};

/// Seeds that a thread takes at a time.
const CHUNK: u64 = 64;

/// A difference and how to come by it.
#[derive(Clone, PartialEq, Eq, Debug)]
pub struct Report {
    pub seed: u64,
    pub source: Source,
    pub variant: Variant,
    pub judge: Judge,
    pub mode: u32,
    /// What decided the contents of scratch.
    pub scratch: u32,
    pub difference: Difference,
    /// Number and answer by the judge.
    pub expected: (u32, Vec<u32>),
    /// Number and answer by the library.
    pub found: (u32, Vec<u32>),
}

impl fmt::Display for Report {
    fn fmt(&self, out: &mut fmt::Formatter) -> fmt::Result {
        let Difference { part, place, .. } = self.difference;
        writeln!(
            out,
            "seed {}, {:?}, {:?}, mode {}, scratch by {}",
            self.seed, self.source, self.variant, self.mode, self.scratch
        )?;
        let difference = &self.difference;
        let judge = match self.judge {
            Judge::Rust => "Rust",
            Judge::Mode0 => "library in mode 0",
        };
        let sides = [
            (judge, &self.expected, difference.expected),
            ("library", &self.found, difference.found),
        ];
        for (side, (number, answer), word) in sides {
            writeln!(
                out,
                "the {side}: number {number}, answer {answer:?}, {part:?} {place}: {word:?}"
            )?;
        }
        Ok(())
    }
}

/// Compares the seeds of a range on all cores, until there is a difference; that of the least seed is
/// given. The library is what is held against the Rust: `Call::by_library`, or one with a mistake.
pub fn compare_range<L>(first: u64, count: u64, library: L) -> Result<Tally, Box<Report>>
where
    L: Fn(&Call, u32) -> Left + Sync,
{
    compare_range_counting(first, count, library, &AtomicU64::new(0))
}

/// `compare_range` that also counts the seeds that are done.
pub fn compare_range_counting<L>(
    first: u64,
    count: u64,
    library: L,
    done: &AtomicU64,
) -> Result<Tally, Box<Report>>
where
    L: Fn(&Call, u32) -> Left + Sync,
{
    let next = AtomicU64::new(first);
    let end = first + count;
    let threads = thread::available_parallelism().map_or(1, usize::from);
    thread::scope(|scope| {
        // The deepest job, 4,096 rule steps one under another, takes less than that stack by either side.
        let spawn =
            |_| scope.spawn(|| on_deep_stack(|| compare_chunks(&next, end, done, &library)));
        let workers: Vec<_> = (0..threads).map(spawn).collect();
        let tallies = workers
            .into_iter()
            .map(|worker| worker.join().expect("a thread that returns"));
        tallies.fold(Ok(Tally::default()), both)
    })
}

/// The tallies of two threads together, or the difference of the least seed.
fn both(
    one: Result<Tally, Box<Report>>,
    other: Result<Tally, Box<Report>>,
) -> Result<Tally, Box<Report>> {
    match (one, other) {
        (Ok(one), Ok(other)) => Ok(one.and(&other)),
        (Err(one), Err(other)) if other.seed < one.seed => Err(other),
        (Err(report), _) | (_, Err(report)) => Err(report),
    }
}

/// Compares one chunk of seeds after another, until none is left or there is a difference; then no
/// thread takes another, and all lower ones are taken already.
fn compare_chunks(
    next: &AtomicU64,
    end: u64,
    done: &AtomicU64,
    library: impl Fn(&Call, u32) -> Left,
) -> Result<Tally, Box<Report>> {
    let mut tally = Tally::default();
    loop {
        let chunk = next.fetch_add(CHUNK, Ordering::Relaxed);
        if chunk >= end {
            return Ok(tally);
        }
        for seed in chunk..end.min(chunk + CHUNK) {
            for call in calls(seed) {
                compare_call(seed, &call, &library, &mut tally)
                    .inspect_err(|_| next.store(end, Ordering::Relaxed))?;
            }
            tally.seeds += 1;
            done.fetch_add(1, Ordering::Relaxed);
        }
    }
}

/// Calls the library also where the Rust has no answer: it must return.
fn compare_call(
    seed: u64,
    call: &Call,
    library: impl Fn(&Call, u32) -> Left,
    tally: &mut Tally,
) -> Result<(), Box<Report>> {
    let by_rust = match call.judge {
        Judge::Rust => Some(call.by_rust()),
        Judge::Mode0 => None,
    };
    for &scratch in &call.scratches {
        let found = library(call, scratch);
        let expected = match &by_rust {
            Some(Ok(expected)) => expected,
            Some(Err(_)) => {
                tally.too_many_steps += 1;
                continue;
            }
            None => &library(&call.in_mode(PLAIN), scratch),
        };
        if let Some(difference) = difference(expected, &found) {
            return Err(report(seed, call, scratch, difference, [expected, &found]));
        }
        tally.count(call.variant, found.number);
    }
    Ok(())
}

/// A difference with what was expected and what was found.
fn report(
    seed: u64,
    call: &Call,
    scratch: u32,
    difference: Difference,
    sides: [&Left; 2],
) -> Box<Report> {
    let [expected, found] = sides.map(|left| (left.number, left.answer.clone()));
    Box::new(Report {
        seed,
        source: call.source,
        variant: call.variant,
        judge: call.judge,
        mode: call.mode(),
        scratch,
        difference,
        expected,
        found,
    })
}
