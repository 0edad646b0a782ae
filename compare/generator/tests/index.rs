//! What the generator promises of the lent index.

use std::collections::{BTreeMap, BTreeSet};

use generator::{Case, condition_job, counting_job, job};
use job::limits::{index_fits, index_slots};

/// The ways from a seed to a case.
const MADE: [fn(u64) -> Case; 3] = [job, counting_job, condition_job];
const SEEDS: u64 = 4_000;

fn cases() -> impl Iterator<Item = Case> {
    MADE.into_iter().flat_map(|made| (0..SEEDS).map(made))
}

/// An index that is refused is so for one of both reasons; the answer is 12 or what it would be with
/// another index.
#[test]
fn an_index_that_is_refused() {
    let (mut few, mut no_power, mut answered) = (0, 0, 0);
    for case in cases().filter(|case| !index_fits(case.index, case.kinds)) {
        match case.index.is_power_of_two() {
            true => few += 1,
            false => no_power += 1,
        }
        let number = case.judge().expect("few steps").number();
        let taken = case.with_fewest_slots();
        let outcome = taken.judge().expect("few steps");
        match outcome.number() {
            below @ 1..20 => assert_eq!(number, below),
            _ => {
                assert_eq!(number, 12);
                answered += 1;
            }
        }
    }
    assert!(few > 20 && no_power > 100 && answered > 100);
    assert!(few + no_power < 500);
}

/// How many times the fewest slots there are: once mostly.
#[test]
fn every_size_that_is_taken() {
    let mut times: BTreeMap<usize, u32> = BTreeMap::new();
    for case in cases().filter(|case| index_fits(case.index, case.kinds)) {
        *times
            .entry(case.index / index_slots(case.kinds))
            .or_default() += 1;
    }
    let sizes: Vec<usize> = times.keys().copied().collect();
    assert_eq!(sizes, [1, 2, 4, 8, 16]);
    assert!(times.values().all(|&count| count > 1_000), "{times:?}");
    assert!(times[&1] > times[&2] + times[&4] + times[&8]);
}

/// Stores that get full, some beside an index that is then full to the half.
#[test]
fn full_stores() {
    let (mut full, mut half) = (0, 0);
    for case in cases() {
        let terms = case.judge().expect("few steps").terms();
        if terms > 0 && terms == case.kinds {
            full += 1;
            half += u32::from(case.index == 2 * terms);
        }
    }
    assert!(full > 1_000 && half > 30, "{full} {half}");
}

/// The first slot, by which terms are mixed, is 0, all ones, or one of many words.
#[test]
fn first_slots() {
    let lent = cases().filter_map(|case| case.lent_index().first().copied());
    let words: Vec<u32> = lent.collect();
    let of = |word: u32| words.iter().filter(|&&first| first == word).count();
    assert!(of(0) > 1_000 && of(u32::MAX) > 1_000);
    let distinct: BTreeSet<u32> = words.into_iter().collect();
    assert!(distinct.len() > 5_000);
}

/// Other slots are often numbers that could be entries: not 0, and of terms that there are.
#[test]
fn slots_that_look_like_entries() {
    let looks = cases().filter(|case| {
        let terms = case.job.first().copied().unwrap_or(0);
        let slots = case.lent_index();
        slots[slots.len().min(1)..]
            .iter()
            .any(|slot| (1..=terms).contains(slot))
    });
    assert!(looks.count() > 3_000);
}
