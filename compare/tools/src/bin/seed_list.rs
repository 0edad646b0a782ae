//! Writes a list, in the format of the fixed list, of the cases of some seeds: seed_list FROM COUNT FILE.
//! In every second case one word of the job is changed. The list ends where the room of the program replay does.

use std::{env, fs, slice};

use generator::{Case, Random};
use tools::fixed_list::{self, Entry};
use tools::to_bytes;

/// What replay can read.
const MOST_WORDS: usize = 233_616;

fn main() {
    let arguments: Vec<String> = env::args().collect();
    let [_, from, count, file] = &arguments[..] else {
        panic!("seed_list FROM COUNT FILE");
    };
    let from: u64 = from.parse().expect("the first seed");
    let count: u64 = count.parse().expect("the number of seeds");
    let entries = entries(from, count);
    fs::write(file, to_bytes(&fixed_list::words(&entries))).expect("a list that can be written");
    println!("{}", entries.len());
}

fn entries(from: u64, count: u64) -> Vec<Entry> {
    let head = fixed_list::words(&[]).len();
    let mut used = head;
    let mut entries = Vec::new();
    for seed in from..from + count {
        let case = case(seed);
        let Ok(outcome) = case.judge() else { continue };
        let entry = Entry { case, outcome };
        used += fixed_list::words(slice::from_ref(&entry)).len() - head;
        if used > MOST_WORDS {
            break;
        }
        entries.push(entry);
    }
    entries
}

/// The case of a seed, with one word changed where the seed is odd.
fn case(seed: u64) -> Case {
    let mut case = generator::job(seed).with_fewest_slots();
    let mut random = Random::new(seed);
    if seed % 2 == 1 && !case.job.is_empty() {
        let place = random.below(case.job.len());
        let word = case.job[place];
        case.job[place] = match random.below(5) {
            0 => 0,
            1 => word.wrapping_add(1),
            2 => word.wrapping_sub(1),
            3 => u32::MAX,
            _ => random.below(40) as u32,
        };
    }
    case
}
