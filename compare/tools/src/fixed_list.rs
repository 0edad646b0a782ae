//! The fixed list: some 600 jobs with the Rust's answers and stores, as words.

mod telling;

use std::collections::{BTreeMap, BTreeSet};

use generator::{Case, Outcome};
use job::limits;
use job::modes::PLAIN;

use crate::bench_jobs;
pub use telling::{TELLING, TELLING_HEIGHTS};

/// The bytes `JOBS`.
pub const MAGIC: u32 = u32::from_le_bytes(*b"JOBS");
pub const VERSION: u32 = 1;
pub const COUNT: usize = 600;

/// Every number that document 01 defines and that can be reached.
pub fn numbers() -> Vec<u32> {
    let reached = |number: &u32| !matches!(number, 4 | 11..=19 | 48);
    (0..=53).filter(reached).collect()
}

/// Jobs of each number at least.
const OF_EACH: usize = 10;
const LARGE: usize = 1_200;
const MOST_LARGE: usize = 16;
const LONGEST: usize = 4_095;
const USUAL: usize = 520;
/// What all lent words hold.
const FILL: u32 = 0xa5a5_a5a5;

/// A case with what the Rust says to it.
pub struct Entry {
    pub case: Case,
    pub outcome: Outcome,
}

/// The bench jobs, the telling seeds, the first seeds that a number lacks, accepted ones.
pub fn entries() -> Vec<Entry> {
    let mut list = List::default();
    for case in bench_jobs::cases() {
        list.push(case);
    }
    for &(_, seeds) in TELLING {
        for &seed in seeds {
            list.push_seed(seed);
        }
    }
    let mut seed = 0;
    while !list.has_enough() {
        list.push_seed_if(seed, |list, number| list.count(number) < OF_EACH);
        seed += 1;
    }
    let mut seed = 0;
    while list.entries.len() < COUNT {
        list.push_seed_if(seed, |_, number| number == 0);
        seed += 1;
    }
    list.entries
}

/// The list while it grows.
#[derive(Default)]
struct List {
    entries: Vec<Entry>,
    seeds: BTreeSet<u64>,
    counts: BTreeMap<u32, usize>,
    large: usize,
}

impl List {
    fn count(&self, number: u32) -> usize {
        self.counts.get(&number).copied().unwrap_or(0)
    }

    fn has_enough(&self) -> bool {
        numbers()
            .iter()
            .all(|&number| self.count(number) >= OF_EACH)
    }

    fn push(&mut self, case: Case) {
        let outcome = case.judge().expect("few steps");
        self.push_entry(Entry { case, outcome });
    }

    fn push_entry(&mut self, entry: Entry) {
        *self.counts.entry(entry.outcome.number()).or_default() += 1;
        self.large += usize::from(entry.case.job.len() >= LARGE);
        self.entries.push(entry);
    }

    /// Takes a seed that tells, whatever its length.
    fn push_seed(&mut self, seed: u64) {
        if self.seeds.insert(seed) {
            let case = case_of(seed);
            assert!(fits_program(&case), "seed {seed}");
            self.push(case);
        }
    }

    /// Takes a seed once, if it fits and its number is wanted.
    fn push_seed_if(&mut self, seed: u64, wanted: impl Fn(&List, u32) -> bool) {
        if self.seeds.contains(&seed) {
            return;
        }
        let case = case_of(seed);
        if !fits(&case, self.large) {
            return;
        }
        if let Ok(outcome) = case.judge()
            && wanted(self, outcome.number())
        {
            self.seeds.insert(seed);
            self.push_entry(Entry { case, outcome });
        }
    }
}

/// The case of a seed. The list says nothing of an index: who replays it lends one that is taken.
fn case_of(seed: u64) -> Case {
    generator::job(seed).with_fewest_slots()
}

/// Of the usual length, or one of some large ones.
fn fits(case: &Case, large: usize) -> bool {
    let length = case.job.len();
    let wanted = length <= USUAL || length >= LARGE && large < MOST_LARGE;
    wanted && fits_program(case)
}

/// Short enough for the list, with a store like the program's.
fn fits_program(case: &Case) -> bool {
    case.job.len() <= LONGEST
        && case.kinds.max(case.ends) <= limits::PROGRAM_CELLS
        && case.pool <= limits::PROGRAM_POOL
}

/// The whole list as words.
pub fn words(entries: &[Entry]) -> Vec<u32> {
    let most = |of: fn(&Case) -> usize| {
        let all = entries.iter().map(|entry| of(&entry.case));
        all.max().unwrap_or(0) as u32
    };
    let mut words = vec![MAGIC, VERSION, entries.len() as u32];
    words.extend([
        most(|case| case.job.len()),
        most(|case| case.kinds.max(case.ends)),
        most(|case| case.pool),
        most(|case| case.scratch),
    ]);
    for entry in entries {
        push_entry(&mut words, entry);
    }
    words
}

fn push_entry(words: &mut Vec<u32>, entry: &Entry) {
    let (case, outcome) = (&entry.case, &entry.outcome);
    let (terms, pool_words) = (outcome.terms(), outcome.pool_words());
    words.extend([
        case.job.len() as u32,
        case.asked,
        case.kinds as u32,
        case.ends as u32,
        case.pool as u32,
        case.scratch as u32,
        FILL,
        pool_words as u32,
    ]);
    words.extend(&case.job);
    words.extend(outcome.answer);
    words.extend(&outcome.kinds[..terms]);
    words.extend(&outcome.ends[..terms]);
    words.extend(&outcome.pool[..pool_words]);
}

/// One job of a list that was read back.
#[derive(Clone, PartialEq, Eq, Debug)]
pub struct Read {
    pub case: Case,
    pub answer: [u32; limits::ANSWER],
    pub kinds: Vec<u32>,
    pub ends: Vec<u32>,
    pub pool: Vec<u32>,
}

/// Reads the words in order.
pub fn read(words: &[u32]) -> Vec<Read> {
    let mut rest = words;
    let mut take = move |count: usize| {
        let (taken, after) = rest.split_at(count);
        rest = after;
        taken
    };
    let head = take(7);
    assert_eq!(head[..2], [MAGIC, VERSION]);
    let list = (0..head[2]).map(|_| read_entry(&mut take)).collect();
    assert_eq!(take(0).len(), 0);
    list
}

fn read_entry<'a>(take: &mut impl FnMut(usize) -> &'a [u32]) -> Read {
    let head: [u32; 8] = take(8).try_into().expect("eight words");
    let job = take(head[0] as usize).to_vec();
    let answer: [u32; 8] = take(8).try_into().expect("eight words");
    let terms = answer[1] as usize;
    let case = Case {
        job,
        asked: head[1],
        mode: PLAIN,
        kinds: head[2] as usize,
        ends: head[3] as usize,
        pool: head[4] as usize,
        index: 0,
        scratch: head[5] as usize,
        fill: head[6],
        index_fill: head[6],
    };
    Read {
        case: case.with_fewest_slots(),
        answer,
        kinds: take(terms).to_vec(),
        ends: take(terms).to_vec(),
        pool: take(head[7] as usize).to_vec(),
    }
}

/// What the text beside the list says.
pub fn description(entries: &[Entry]) -> String {
    let list = words(entries);
    let mut counts: BTreeMap<u32, usize> = BTreeMap::new();
    for entry in entries {
        *counts.entry(entry.outcome.number()).or_default() += 1;
    }
    let counts: Vec<String> = counts
        .iter()
        .map(|(number, count)| format!("{number}: {count}"))
        .collect();
    let mut text = String::from(FORMAT);
    text.push_str(&format!(
        "Jobs: {}. Words: {}. Bytes: {}.\nLongest job: {} words. Largest C: {}. Largest W: {}. Largest scratch: {}.\n",
        list[2], list.len(), 4 * list.len(), list[3], list[4], list[5], list[6],
    ));
    text.push_str("\nAnswers, number: count\n");
    for line in counts.chunks(10) {
        text.push_str(&line.join(", "));
        text.push('\n');
    }
    text
}

const FORMAT: &str = "\
The fixed list: jobs with the answers and stores of egglog's check_proof.

Made in compare/ by

    cargo run --offline --release -p tools --bin fixed_list

which writes data/fixed_list.bin and this text. A test makes both anew and compares them byte for
byte.

Format of data/fixed_list.bin: 32-bit words, little-endian, read in order.

Head, seven words:
  magic (the bytes JOBS), version 1, number of jobs, and the largest among all jobs of:
  job words, C (either array), W, scratch words.

Then each job:
  eight words: job words n, asked proof, length of kinds, length of ends, length of the pool,
    length of the scratch, what every lent store word holds before, pool words in use after (p)
  n words: the job
  eight words: the answer; its second word is the number of terms t
  t words: kinds; t words: ends; p words: pool, as the check leaves them

Store words past those are as lent. Below 20, t and p are 0 and every store word is as lent.
The first 19 jobs are document 01's bench jobs: A, the twelve marked cases of B in their order,
then the unmarked ones (eval; C = 3; W = 9; C = 4 and W = 10; 16 arguments; 17 arguments).
Then come seeds of the generator: those of tools/src/fixed_list/telling.rs, which a change to one
place of the Rust would answer otherwise; those that give each number ten jobs; accepted ones.

";
