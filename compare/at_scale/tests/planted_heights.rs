//! A library with a planted mistake in its heights: each is found.

#[path = "../../oracle/tests/height_mistakes/mod.rs"]
mod height_mistakes;

use at_scale::{Call, Input, Left, Part, Tally, compare_range};
use height_mistakes::{Accepted, MISTAKES};
use tools::to_words;

const SEEDS: u64 = 2_000;

/// What the library leaves, with the height counted in this way where it accepts.
fn with_height(call: &Call, scratch: u32, height: impl Fn(&Accepted) -> u32) -> Left {
    let mut left = call.by_library(scratch);
    let (words, asked) = match &call.input {
        Input::Words(case) => (case.job.clone(), case.asked),
        Input::Bytes { job, asked, .. } => (to_words(job), *asked),
    };
    if left.number == 0 {
        left.answer[4] = height(&Accepted::new(&words, asked, call.mode()));
    }
    left
}

#[test]
fn every_mistake_is_found() {
    for (mistake, height) in MISTAKES {
        let report = compare_range(0, SEEDS, |call, scratch| with_height(call, scratch, height));
        let difference = report.expect_err(mistake).difference;
        let place = (difference.part, difference.place);
        assert_eq!(place, (Part::Answer, 4), "{mistake}");
    }
}

#[test]
fn none_is_found_without_a_mistake() {
    let tally = compare_range(0, SEEDS / 4, |call, scratch| {
        with_height(call, scratch, |it| it.right_height())
    });
    let Tally { seeds, .. } = tally.expect("no difference");
    assert_eq!(seeds, SEEDS / 4);
}
