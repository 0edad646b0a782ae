//! Holds the proved library against the Rust: compare [FIRST [COUNT]], seeds 0 to 199,999 unless told otherwise,
//! the job and the counting job of each, in both modes, and the job with bare container conditions of every second.
//! One line if there is no difference; else the first one found, and status 1. Standard error says how far it is.
//! compare FIRST COUNT details: after the line, how often each number and each variant came up.

use std::env;
use std::process::ExitCode;
use std::sync::atomic::AtomicU64;
use std::time::Instant;

use at_scale::{Call, compare_range_counting, with_progress};

const SEEDS: u64 = 200_000;

fn main() -> ExitCode {
    let arguments: Vec<String> = env::args().skip(1).collect();
    let number = |place: usize, default| match arguments.get(place) {
        Some(text) => text.parse().expect("a number of seeds"),
        None => default,
    };
    let started = Instant::now();
    let (first, count) = (number(0, 0), number(1, SEEDS));
    let done = AtomicU64::new(0);
    let compare = || compare_range_counting(first, count, Call::by_library, &done);
    match with_progress(&done, count, compare) {
        Ok(tally) => {
            let seconds = started.elapsed().as_secs_f64();
            println!("{}; {seconds:.1} s", tally.summary());
            if arguments.get(2).is_some_and(|text| text == "details") {
                print!("{}", tally.details());
            }
            ExitCode::SUCCESS
        }
        Err(report) => {
            print!("{report}");
            ExitCode::FAILURE
        }
    }
}
