//! What the generator promises of bare container conditions.

use std::collections::BTreeMap;

use generator::{Case, OTHER_MODES, condition_job, counting_job, job};
use job::modes::{PLAIN, STRICT, bare_containers};
use job::{Job, Table, Tables};

const SEEDS: u64 = 6_000;

fn answer(case: &Case, mode: u32) -> [u32; 8] {
    let outcome = case.clone().in_mode(mode).judge();
    outcome.expect("few steps").answer
}

/// The first two cases of a seed are in mode 0; the third is mostly strict, and in every other mode too.
#[test]
fn modes() {
    let mut counts: BTreeMap<u32, u32> = BTreeMap::new();
    for seed in 0..SEEDS / 10 {
        assert_eq!([job(seed).mode, counting_job(seed).mode], [PLAIN; 2]);
    }
    for seed in 0..SEEDS {
        *counts.entry(condition_job(seed).mode).or_default() += 1;
    }
    assert!(counts[&STRICT] > 4_500 && counts[&PLAIN] > 300);
    for mode in OTHER_MODES {
        assert!(counts[&mode] > 30, "mode {mode}");
    }
    assert_eq!(counts.len(), 2 + OTHER_MODES.len());
}

/// Conditions are the reason for 45, 46, 51 and 53: mode 0 answers otherwise.
#[test]
fn refusals_by_conditions() {
    let mut counts: BTreeMap<u32, u32> = BTreeMap::new();
    for seed in 0..SEEDS {
        let case = condition_job(seed);
        let strict = answer(&case, STRICT);
        if strict != answer(&case, PLAIN) {
            *counts.entry(strict[0]).or_default() += 1;
        }
    }
    for number in [0, 45, 46, 51, 53] {
        assert!(counts[&number] >= 30, "{number}: {counts:?}");
    }
}

/// The job with a call of a primitive without validator in place of every bare container condition.
fn without_validator(case: &Case) -> Case {
    let job = Job::read(&case.job).expect("a job");
    let conditions = bare_containers(&job);
    let mut tables = Tables::read(&case.job).expect("a job with formed ends");
    let primitive = tables.primitive(2, 0);
    let call = tables.primitive_call(primitive, &[]);
    for condition in conditions {
        tables.of_mut(Table::Facts)[condition as usize].words = vec![call];
    }
    Case {
        job: tables.words(),
        ..case.clone()
    }
}

/// In many accepted jobs a condition is evaluated: without its validator the answer is 51.
#[test]
fn conditions_that_hold() {
    let accepted = (0..SEEDS)
        .map(condition_job)
        .filter(|case| answer(case, STRICT)[0] == 0);
    let evaluated = accepted.filter(|case| answer(&without_validator(case), STRICT)[0] == 51);
    let count = evaluated.count();
    assert!(count >= 500, "{count}");
}
