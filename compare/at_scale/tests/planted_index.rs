//! A library with a planted mistake about the index: each is found, in a call where it shows.

use at_scale::{Call, Input, Left, Part, Report, Variant, compare_range};
use generator::Case;
use job::limits::{ANSWER, index_fits, index_slots};
use tools::index_model::Index;

const SEEDS: u64 = 2_000;

fn found(library: impl Fn(&Call, u32) -> Left + Sync) -> Report {
    *compare_range(0, SEEDS, library).expect_err("the mistake is found")
}

/// The library where these slots are taken, too.
fn taking(taken: impl Fn(&Case) -> bool + Sync) -> Report {
    found(|call, scratch| {
        let mut call = call.clone();
        if let Input::Words(case) = &mut call.input
            && taken(case)
        {
            case.index = index_slots(case.kinds);
        }
        call.by_library(scratch)
    })
}

/// What is found where the mistake changes what the library left of a call by words.
fn found_after(mistake: impl Fn(&Case, u32, &mut Left) + Sync) -> Report {
    found(|call, scratch| {
        let mut left = call.by_library(scratch);
        if let Input::Words(case) = &call.input {
            mistake(case, scratch, &mut left);
        }
        left
    })
}

#[test]
fn no_12_at_all() {
    let report = taking(|_| true);
    assert_eq!(report.expected.0, 12);
}

#[test]
fn counts_that_are_no_power_of_two() {
    let report = taking(|case| case.index >= 2 * case.kinds);
    assert_eq!(report.expected.0, 12);
    let report = taking(|case| case.index == 3 * case.kinds);
    assert_eq!(report.expected.0, 12);
}

#[test]
fn too_few_slots() {
    let power = |case: &Case| case.index.is_power_of_two();
    for report in [
        taking(power),
        taking(|case| power(case) && case.index >= case.kinds),
        taking(|case| power(case) && case.index >= 2 * case.job.first().map_or(0, |&t| t as usize)),
        taking(|case| case.index == 1),
        taking(|case| case.index == 0),
    ] {
        assert_eq!(report.expected.0, 12);
    }
}

/// One slot less than twice the cells, and twice the cells where 12 is given up to there.
#[test]
fn a_bound_one_off() {
    let report = taking(|case| case.index + 1 == 2 * case.kinds);
    assert_eq!(report.expected.0, 12);
    let report = found_after(|case, _, left| {
        if case.index == 2 * case.kinds && !(1..20).contains(&left.number) {
            refuse(left, 12);
        }
    });
    assert_eq!(report.found.0, 12);
}

/// The answer becomes a number below 20 without a field.
fn refuse(left: &mut Left, number: u32) {
    left.number = number;
    left.answer = vec![0; ANSWER];
    left.answer[0] = number;
}

/// 12 comes behind every other number.
#[test]
fn another_place_of_12() {
    for other in [1, 2, 3, 5, 6, 7, 8, 9, 10, 11] {
        let report = found_after(|case, _, left| {
            let written = left.answer.len() == ANSWER;
            if !index_fits(case.index, case.kinds) && left.number == other && written {
                refuse(left, 12);
            }
        });
        assert_eq!((report.expected.0, report.found.0), (other, 12));
    }
}

#[test]
fn a_12_before_the_answer_s_length() {
    let report = found_after(|case, _, left| {
        if !index_fits(case.index, case.kinds) && left.answer.len() != ANSWER {
            left.number = 12;
        }
    });
    assert_eq!(report.expected.0, 10);
}

#[test]
fn a_12_with_a_field() {
    let report = found_after(|case, _, left| {
        if left.number == 12 {
            left.answer[2] = case.index as u32 | 1;
        }
    });
    let place = (report.difference.part, report.difference.place);
    assert_eq!(place, (Part::Answer, 2));
}

#[test]
fn a_store_that_is_written_on_12() {
    let report = found_after(|_, _, left| {
        if let (12, [first, ..]) = (left.number, &mut left.kinds[..]) {
            *first ^= 1;
        }
    });
    assert_eq!(report.difference.part, Part::Kinds);
}

#[test]
fn a_12_of_the_host_entry() {
    let report = found(|call, scratch| {
        let mut left = call.by_library(scratch);
        let bytes = matches!(call.input, Input::Bytes { .. });
        if bytes && left.number >= 20 && left.answer[1] > 20 {
            refuse(&mut left, 12);
        }
        left
    });
    assert_eq!(report.found.0, 12);
}

/// The height of what is accepted depends on something.
fn with_height(depends: impl Fn(&Call, u32) -> bool + Sync) -> Report {
    found(|call, scratch| {
        let mut left = call.by_library(scratch);
        if left.number == 0 && depends(call, scratch) {
            left.answer[4] += 1;
        }
        left
    })
}

#[test]
fn an_answer_that_depends_on_the_lent_word() {
    for depends in [
        |word: u32| word == 0,
        |word: u32| word == u32::MAX,
        |word: u32| !matches!(word, 0 | u32::MAX),
        |word: u32| word >> 24 == 77,
    ] {
        with_height(|call, scratch| depends(call.word(scratch)));
        let by_bytes = with_height(|call, scratch| {
            matches!(call.input, Input::Bytes { .. }) && depends(call.word(scratch))
        });
        assert!(matches!(
            by_bytes.variant,
            Variant::Host | Variant::HostOtherProof | Variant::HostMode
        ));
    }
}

/// The model's index of a call by words whose index is taken.
fn modelled(call: &Call, scratch: u32) -> Option<Index> {
    match &call.input {
        Input::Words(case) => {
            let word = call.word(scratch);
            Some(Index::of_job(word, case.index, &case.job))
        }
        Input::Bytes { .. } => None,
    }
}

/// A slot that could pass for an entry is taken for one.
#[test]
fn an_index_that_is_not_cleared() {
    let report = with_height(|call, scratch| match &call.input {
        Input::Words(case) => {
            let slots = Call::lent_index(case, scratch);
            slots[1..]
                .iter()
                .any(|slot| (1..=case.job[0]).contains(slot))
        }
        Input::Bytes { .. } => false,
    });
    assert_eq!(report.difference.part, Part::Answer);
}

/// Jobs whose terms meet: by a mistake of a library that looks at one slot only.
#[test]
fn a_look_up_that_stops_at_the_first_slot() {
    let met = |most: u64| {
        with_height(|call, scratch| {
            modelled(call, scratch).is_some_and(|index| index.comparisons > most)
        })
    };
    met(0);
    met(6);
}

#[test]
fn no_step_round_the_end() {
    with_height(|call, scratch| modelled(call, scratch).is_some_and(|index| index.goes_round()));
}

#[test]
fn an_index_that_must_not_be_full_to_the_half() {
    let report = found(|call, scratch| {
        let mut left = call.by_library(scratch);
        if let Input::Words(case) = &call.input
            && left.number == 0
            && 2 * left.answer[1] as usize == case.index
        {
            left.answer[4] += 1;
        }
        left
    });
    assert_eq!(report.difference.part, Part::Answer);
}

/// Of two sizes that are taken, one or the other leads to another answer.
#[test]
fn an_answer_that_depends_on_the_slots() {
    for times in [1, 2, 4, 8, 16, 32, 64] {
        let report = with_height(|call, _| match &call.input {
            Input::Words(case) => case.index == times * index_slots(case.kinds),
            Input::Bytes { .. } => false,
        });
        assert_eq!(report.difference.part, Part::Answer);
    }
}
