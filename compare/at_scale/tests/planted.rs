//! A library with a planted mistake: each is found, in a call and a part where it shows.

use at_scale::{Call, Input, Left, Part, Source, Variant, compare_range};
use job::limits::{SIZES, index_fits};
use job::{Job, Table, primitives};

const SEEDS: u64 = 400;

/// What is found of a mistake: why the call was made, and the part that differs.
fn found(library: impl Fn(&Call, u32) -> Left + Sync) -> (Variant, Part) {
    let report = compare_range(0, SEEDS, library).expect_err("the mistake is found");
    (report.variant, report.difference.part)
}

/// What is found where the mistake changes what the library left.
fn found_after(mistake: impl Fn(&Call, &mut Left) + Sync) -> (Variant, Part) {
    found(|call, scratch| {
        let mut left = call.by_library(scratch);
        mistake(call, &mut left);
        left
    })
}

#[test]
fn a_number_beside_the_answer() {
    let returned = found_after(|_, left| left.number = left.number.max(1));
    assert_eq!(returned.1, Part::Number);
}

#[test]
fn a_field_that_should_be_0() {
    let field = found_after(|_, left| {
        if left.number == 46 {
            left.answer[7] = 1;
        }
    });
    assert_eq!(field.1, Part::Answer);
}

#[test]
fn a_word_past_the_terms() {
    let last = found_after(|_, left| {
        if left.number == 0
            && let Some(word) = left.pool.last_mut()
        {
            *word ^= 1;
        }
    });
    assert_eq!(last.1, Part::Pool);
}

#[test]
fn a_store_left_as_it_was_on_a_refusal() {
    let idle = found(|call, scratch| {
        let mut left = call.by_library(scratch);
        if let (33, Input::Words(case)) = (left.number, &call.input) {
            left.kinds = case.lent_kinds();
            left.ends = case.lent_ends();
            left.pool = case.lent_pool();
        }
        left
    });
    assert_eq!(idle.1, Part::Kinds);
}

#[test]
fn terms_copied_before_they_are_refused() {
    let copied = found_after(|_, left| {
        if left.number == 10 && !left.ends.is_empty() {
            left.ends[0] = 3;
        }
    });
    assert_eq!(copied.1, Part::Ends);
}

#[test]
fn an_answer_of_another_length_that_is_written() {
    let written = found_after(|call, left| {
        if call.answer == 7 {
            left.answer[0] = 10;
        }
    });
    assert_eq!(written.1, Part::Answer);
    let host = found_after(|call, left| {
        if call.answer == 16 && matches!(call.input, Input::Bytes { mode: None, .. }) {
            left.answer[15] ^= 1;
        }
    });
    assert_eq!(host, (Variant::HostAnswerLength, Part::Answer));
}

#[test]
fn an_answer_that_depends_on_what_scratch_held() {
    let depends = found(|call, scratch| {
        let mut left = call.by_library(scratch);
        if call.scratches[1..].contains(&scratch) && left.number == 0 {
            left.answer[4] += 1;
        }
        left
    });
    assert_eq!(depends.1, Part::Answer);
}

#[test]
fn the_shorter_of_unequal_arrays_taken_for_c() {
    let shorter = found(|call, scratch| {
        let mut even = call.clone();
        let (Input::Words(case), Input::Words(lent)) = (&mut even.input, &call.input) else {
            return call.by_library(scratch);
        };
        let cells = case.kinds.min(case.ends);
        (case.kinds, case.ends) = (cells, cells);
        let mut left = even.by_library(scratch);
        left.kinds.extend(&lent.lent_kinds()[cells..]);
        left.ends.extend(&lent.lent_ends()[cells..]);
        left
    });
    assert_eq!(shorter, (Variant::UnequalArrays, Part::Number));
}

#[test]
fn scratch_one_short_that_is_taken() {
    let short = found(|call, scratch| {
        let mut ample = call.clone();
        if let Input::Words(case) = &mut ample.input {
            case.scratch += 1;
        }
        ample.by_library(scratch)
    });
    assert_eq!(short, (Variant::ScratchLength, Part::Number));
}

#[test]
fn left_over_bytes_that_are_dropped() {
    let dropped = found(|call, scratch| {
        let mut whole = call.clone();
        if let Input::Bytes { job, .. } = &mut whole.input {
            job.truncate(job.len() / 4 * 4);
        }
        whole.by_library(scratch)
    });
    assert_eq!(dropped, (Variant::HostAdded, Part::Number));
}

/// A case may be tight as it is made.
#[test]
fn room_for_one_more_than_was_lent() {
    for (cells, words) in [(1, 0), (0, 1)] {
        let (variant, part) = found(|call, scratch| wider(call, scratch, cells, words));
        assert!(matches!(
            variant,
            Variant::Tight | Variant::AsMade | Variant::Colliding
        ));
        assert_eq!(part, Part::Number);
    }
}

/// It shows in a seed's counting job.
#[test]
fn calls_that_compute_taken_for_calls_with_rows() {
    let report = compare_range(0, SEEDS, |call, scratch| {
        let mut rows = call.clone();
        if let Input::Words(case) = &mut rows.input {
            without_counts(&mut case.job);
        }
        rows.by_library(scratch)
    });
    let source = report.expect_err("the mistake is found").source;
    assert_eq!(source, Source::CountingJob);
}

/// Primitives of kinds 4 to 8 become ones of kind 1.
fn without_counts(words: &mut [u32]) {
    let Some(job) = Job::read(words) else { return };
    let first = SIZES + job.global_number(Table::Primitives, 0);
    let count = job.count(Table::Primitives);
    for kind in &mut words[first..first + count] {
        if primitives::counts(*kind) {
            *kind = 1;
        }
    }
}

/// A call with more room than was asked for, cut back to that afterwards.
fn wider(call: &Call, scratch: u32, cells: usize, pool: usize) -> Left {
    let mut wide = call.clone();
    let Input::Words(case) = &mut wide.input else {
        return call.by_library(scratch);
    };
    let lengths = (case.kinds, case.ends, case.pool);
    case.kinds += cells;
    case.ends += cells;
    case.pool += pool;
    case.scratch += 2 * cells;
    if index_fits(case.index, lengths.0) {
        case.index *= 2;
    }
    let mut left = wide.by_library(scratch);
    left.kinds.truncate(lengths.0);
    left.ends.truncate(lengths.1);
    left.pool.truncate(lengths.2);
    left
}
