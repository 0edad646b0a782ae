//! What the generator promises.

use std::collections::BTreeMap;

use generator::{
    Case, condition_job, counting_job, holding_condition_job, holding_counting_job, holding_job,
    job,
};
use job::limits::SIZES;
use job::primitives::{self, COUNTING};
use job::{Job, Table};

/// The ways from a seed to a case.
const MADE: [fn(u64) -> Case; 3] = [job, counting_job, condition_job];

#[test]
fn a_seed_gives_one_job() {
    for made in MADE {
        for seed in 0..300 {
            assert_eq!(made(seed), made(seed));
        }
    }
}

#[test]
fn proofs_built_forward_hold() {
    for made in [holding_job, holding_counting_job, holding_condition_job] {
        for seed in 0..3_000 {
            let outcome = made(seed).judge().expect("few steps");
            assert_eq!(outcome.number(), 0, "seed {seed}: {:?}", outcome.answer);
        }
    }
}

/// Each number that document 01 defines comes up, and 12; 48 does not, and 11 where there are other modes.
#[test]
fn every_number_comes_up() {
    for (made, with_modes) in MADE.into_iter().zip([false, false, true]) {
        let mut counts: BTreeMap<u32, u32> = BTreeMap::new();
        for seed in 0..20_000 {
            let outcome = made(seed).judge().expect("few steps");
            *counts.entry(outcome.number()).or_default() += 1;
        }
        for number in 0..=53 {
            let count = counts.get(&number).copied().unwrap_or(0);
            match number {
                4 | 13..=19 | 48 => assert_eq!(count, 0, "number {number}"),
                11 if !with_modes => assert_eq!(count, 0, "number {number}"),
                _ => assert!(count >= 20, "number {number}: {count}"),
            }
        }
    }
}

/// Below 20 every lent word stays; from 20 up and on 0 the words past the terms do.
#[test]
fn words_past_the_terms_are_as_lent() {
    for made in MADE {
        for seed in 0..3_000 {
            let case = made(seed);
            let outcome = case.judge().expect("few steps");
            let (terms, pool_words) = (outcome.terms(), outcome.pool_words());
            assert_eq!(outcome.kinds[terms..], case.lent_kinds()[terms..]);
            assert_eq!(outcome.ends[terms..], case.lent_ends()[terms..]);
            assert_eq!(outcome.pool[pool_words..], case.lent_pool()[pool_words..]);
        }
    }
}

/// What becomes of the calls of a primitive that computes.
#[derive(Clone, Copy, PartialEq, Eq, Debug)]
enum Evaluated {
    Never,
    WithValue,
    WithoutValue,
}

/// The primitives of kinds 4 to 8 whose name no other has, by place and kind; none of a job that is
/// refused below 20.
fn counting_primitives(case: &Case) -> Vec<(usize, u32)> {
    let number = case.judge().expect("few steps").number();
    if (1..20).contains(&number) {
        return Vec::new();
    }
    let job = Job::read(&case.job).expect("a job");
    let cells: Vec<_> = job.cells(Table::Primitives).collect();
    let alone = |name: u32| cells.iter().filter(|cell| cell.words[0] == name).count() == 1;
    (0..cells.len())
        .filter(|&place| primitives::counts(cells[place].kind) && alone(cells[place].words[0]))
        .map(|place| (place, cells[place].kind))
        .collect()
}

/// A primitive is evaluated if the answer is 47 or 51 with its name once it has no validator.
fn evaluated(case: &Case, place: usize) -> Evaluated {
    let job = Job::read(&case.job).expect("a job");
    let name = job.cell(Table::Primitives, place).words[0];
    let kind = SIZES + job.global_number(Table::Primitives, place);
    let outcome = case.judge().expect("few steps");
    if outcome.number() == 46 && outcome.answer[2] == name {
        return Evaluated::WithoutValue;
    }
    let mut without = case.clone();
    without.job[kind] = 0;
    let found = without.judge().expect("few steps");
    let reached = matches!(found.number(), 47 | 51) && found.answer[2] == name;
    match reached && outcome.number() != 53 {
        true => Evaluated::WithValue,
        false => Evaluated::Never,
    }
}

/// Each operation has a value in many of the first seeds, and none in some.
#[test]
fn every_operation_is_evaluated() {
    let mut with: BTreeMap<u32, u32> = BTreeMap::new();
    let mut without: BTreeMap<u32, u32> = BTreeMap::new();
    for seed in 0..6_000 {
        let case = counting_job(seed);
        for (place, kind) in counting_primitives(&case) {
            match evaluated(&case, place) {
                Evaluated::WithValue => *with.entry(kind).or_default() += 1,
                Evaluated::WithoutValue => *without.entry(kind).or_default() += 1,
                Evaluated::Never => {}
            }
        }
    }
    for kind in COUNTING {
        let counts = [&with, &without].map(|of| of.get(&kind).copied().unwrap_or(0));
        assert!(
            counts[0] >= 600 && counts[1] >= 20,
            "kind {kind}: {counts:?}"
        );
    }
}
