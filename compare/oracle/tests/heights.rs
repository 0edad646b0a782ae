//! Mistaken ways to count heights: each is found by a hand-made job.

mod height_mistakes;
#[macro_use]
mod strict_jobs;

use height_mistakes::{Accepted, MISTAKES};
use job::Table;
use job::modes::{PLAIN, STRICT};
use strict_jobs::HandMade;

/// In one of the modes the job is accepted with another height than by this way to count.
fn tells(made: &HandMade, height: impl Fn(&Accepted) -> u32) -> bool {
    let words = made.tables.words();
    let asked = made.tables.count(Table::Proofs) - 1;
    let modes = [(PLAIN, &made.plain), (STRICT, &made.strict)];
    let mut accepted = modes.iter().filter(|(_, expected)| expected.answer[0] == 0);
    accepted
        .any(|(mode, expected)| height(&Accepted::new(&words, asked, *mode)) != expected.answer[4])
}

#[test]
fn every_mistake_is_found() {
    let jobs = each_list!(jobs_of_each_list);
    for (mistake, height) in MISTAKES {
        assert!(jobs.iter().any(|made| tells(made, height)), "{mistake}");
    }
}

#[test]
fn none_is_found_without_a_mistake() {
    let jobs = each_list!(jobs_of_each_list);
    assert!(!jobs.iter().any(|made| tells(made, |it| it.right_height())));
}
