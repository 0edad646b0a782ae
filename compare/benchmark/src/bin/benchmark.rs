//! Ours beside the Rust on the same jobs: nanoseconds for a job, the median of several repetitions.

use std::hint::black_box;
use std::time::{Duration, Instant};

use benchmark::lent::Lent;
use benchmark::sets::{self, Set};

/// Repetitions of a set, and the time that more than the least may take together.
const LEAST: usize = 5;
const MOST: usize = 101;
const BUDGET: Duration = Duration::from_secs(3);

/// What one repetition of a set took: ours, the Rust from words to answer, its `check_proof` alone.
struct Times {
    ours: Duration,
    whole: Duration,
    alone: Duration,
}

/// Both give the same eight words for each job, and accept it.
fn assert_same_answers(set: &Set, lent: &mut [Lent]) {
    for lent in lent {
        lent.rust(set.entry);
        let expected = lent.answer;
        lent.ours(set.entry);
        assert_eq!(lent.answer, expected, "{}", set.name);
        assert_eq!(expected[0], 0, "{}", set.name);
    }
}

fn timed(run: impl FnOnce()) -> Duration {
    let started = Instant::now();
    run();
    started.elapsed()
}

fn repetition(set: &Set, lent: &mut [Lent]) -> Times {
    Times {
        ours: timed(|| {
            for lent in lent.iter_mut() {
                black_box(lent).ours(set.entry);
            }
        }),
        whole: timed(|| {
            for lent in lent.iter_mut() {
                black_box(lent).rust(set.entry);
            }
        }),
        alone: lent.iter_mut().map(Lent::check_proof).sum(),
    }
}

/// Nanoseconds for one job, in the middle repetition.
fn median(times: &[Times], jobs: usize, of: impl Fn(&Times) -> Duration) -> f64 {
    let mut sorted: Vec<Duration> = times.iter().map(of).collect();
    sorted.sort();
    sorted[sorted.len() / 2].as_nanos() as f64 / jobs as f64
}

fn measure(set: &Set) {
    let mut lent: Vec<Lent> = set.cases.iter().map(Lent::new).collect();
    assert_same_answers(set, &mut lent);
    repetition(set, &mut lent);
    let started = Instant::now();
    let mut times = Vec::new();
    while times.len() < LEAST || (times.len() < MOST && started.elapsed() < BUDGET) {
        times.push(repetition(set, &mut lent));
    }
    let jobs = set.cases.len();
    let ours = median(&times, jobs, |times| times.ours);
    let whole = median(&times, jobs, |times| times.whole);
    let alone = median(&times, jobs, |times| times.alone);
    let words: usize = set.cases.iter().map(|case| case.job.len()).sum();
    println!(
        "{:32} {jobs:>4} {:>7} {ours:>12.0} {whole:>12.0} {alone:>12.0} {:>7.2} {:>7.2}",
        set.name,
        words / jobs,
        whole / ours,
        alone / ours
    );
}

fn main() {
    println!("nanoseconds for a job; above 1 ours is faster");
    println!(
        "{:32} {:>4} {:>7} {:>12} {:>12} {:>12} {:>7} {:>7}",
        "set", "jobs", "words", "ours", "Rust whole", "check_proof", "whole", "alone"
    );
    oracle::on_deep_stack(|| {
        for set in sets::all() {
            measure(&set);
        }
    });
}
