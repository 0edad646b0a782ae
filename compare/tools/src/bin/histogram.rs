//! How often each number is the answer: histogram [seeds], 200,000 unless told otherwise; of the seeds'
//! jobs, of their counting jobs, then of their jobs with bare container conditions, each in its mode.

use std::collections::BTreeMap;
use std::time::Instant;

use generator::{Case, condition_job, counting_job, job};

const SEEDS: u64 = 200_000;

fn main() {
    let seeds = match std::env::args().nth(1) {
        Some(text) => text.parse().expect("a number of seeds"),
        None => SEEDS,
    };
    histogram("job", job, seeds);
    histogram("counting job", counting_job, seeds);
    histogram("condition job", condition_job, seeds);
}

/// Prints the numbers of the cases that the seeds make.
fn histogram(name: &str, made: fn(u64) -> Case, seeds: u64) {
    let started = Instant::now();
    let mut counts: BTreeMap<u32, u64> = BTreeMap::new();
    let mut too_many_steps = 0;
    let (mut words, mut longest, mut grown) = (0, 0, 0);
    for seed in 0..seeds {
        let case = made(seed);
        words += case.job.len();
        longest = longest.max(case.job.len());
        match case.judge() {
            Ok(outcome) => {
                *counts.entry(outcome.number()).or_default() += 1;
                grown += u64::from(outcome.answer[1] > case.job.first().copied().unwrap_or(0));
            }
            Err(_) => too_many_steps += 1,
        }
    }
    println!("{name}, seeds {seeds}");
    for (number, count) in &counts {
        println!("{number:>3} {count:>7}");
    }
    println!("without answer, too many steps: {too_many_steps}");
    println!("store grown by the check: {grown}");
    println!("mean words {}, longest {longest}", words as u64 / seeds);
    println!("seconds {:.1}", started.elapsed().as_secs_f64());
}
