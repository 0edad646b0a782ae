//! The index by the library: its slots, what they hold, and terms that have one slot.

use std::time::{Duration, Instant};

use at_scale::{Call, Input, Judge, Left, Source, Variant};
use generator::{Case, Random, counting_job, dirt, job};
use job::limits::{ANSWER, PROGRAM_CELLS, PROGRAM_INDEX, PROGRAM_POOL, index_slots};
use job::modes::{PLAIN, STRICT};
use job::{Table, Tables};
use oracle::on_deep_stack;
use sizercobalt::{check, check_bytes, check_bytes_here, check_bytes_mode, check_here};
use tools::{bench_jobs, colliding, to_bytes};

fn call(input: Input, scratch: u32) -> Call {
    Call {
        source: Source::Job,
        variant: Variant::OtherIndex,
        judge: Judge::Rust,
        input,
        answer: ANSWER,
        scratches: vec![scratch],
    }
}

/// What the library leaves for each of these scratches, which is what the Rust leaves.
#[track_caller]
fn left(input: Input, scratches: impl IntoIterator<Item = u32>) -> Left {
    let expected = call(input.clone(), 0).by_rust().expect("few steps");
    for scratch in scratches {
        let found = call(input.clone(), scratch).by_library(scratch);
        assert_eq!(found, expected, "scratch by {scratch}");
    }
    expected
}

/// Job B's ninth proof with so many cells and slots.
fn job_b(cells: usize, index: usize) -> Case {
    let mut tables = bench_jobs::job_b(true);
    let base = tables.fiat((2, 2));
    let child = tables.fiat((0, 1));
    tables.congruence((2, 3), base, 0, child);
    Case {
        index,
        ..Case::new(tables.words(), 2, cells, 30)
    }
}

/// The number of job B's proof by the library, with five kinds of slots; in both modes.
fn number(cells: usize, index: usize) -> u32 {
    let [plain, strict] = [PLAIN, STRICT].map(|mode| {
        let case = job_b(cells, index).in_mode(mode);
        let lent = [case.lent_kinds(), case.lent_ends(), case.lent_pool()];
        let left = left(Input::Words(case), 0..5);
        if left.number == 12 {
            assert_eq!(left.answer, [12, 0, 0, 0, 0, 0, 0, 0]);
            assert_eq!([left.kinds, left.ends, left.pool], lent);
        }
        left.number
    });
    assert_eq!(plain, strict);
    plain
}

#[test]
fn slots_that_are_refused() {
    for cells in [4, 5, 7, 8, 9, 100, 128, 4_096] {
        let fewest = index_slots(cells);
        for index in [
            0,
            1,
            2,
            2 * cells - 1,
            2 * cells + 1,
            3 * cells,
            fewest / 2,
            fewest - 1,
            fewest + 1,
            2 * fewest - 1,
            3 * fewest,
        ] {
            assert_eq!(number(cells, index), 12, "{cells} cells, {index} slots");
        }
    }
    assert_eq!(number(65_536, 131_071), 12);
    assert_eq!(number(65_536, 65_536), 12);
}

#[test]
fn slots_that_are_taken() {
    for cells in [4, 5, 7, 8, 9, 100, 128, 4_096] {
        for times in 0..8 {
            assert_eq!(number(cells, index_slots(cells) << times), 0);
        }
    }
    assert_eq!(number(65_536, 131_072), 0);
    assert_eq!(number(4, 1 << 22), 0);
}

/// 10 for room comes before 12, and 9 before both.
#[test]
fn order_of_12() {
    for index in [0, 1, 3, 7, 8] {
        for (kinds, ends, pool, scratch) in [
            (4, 5, 10, 34),
            (5, 4, 10, 34),
            (4, 4, 9, 34),
            (4, 4, 10, 13),
        ] {
            let case = Case {
                kinds,
                ends,
                pool,
                scratch,
                ..job_b(4, index)
            };
            assert_eq!(left(Input::Words(case), 0..5).number, 10);
        }
        let mut equal = bench_jobs::job_b(true);
        equal.term_application(4, &[0]);
        equal.fiat((0, 0));
        for cells in [0, 4, 5, 9] {
            let case = Case::new(equal.words(), 0, cells, 30);
            let found = left(Input::Words(Case { index, ..case }), 0..5);
            assert_eq!((found.number, found.answer[2]), (9, 4));
        }
    }
}

/// Equal terms are found last among many, with slots for all, for few and for none.
#[test]
fn equal_terms_among_many() {
    for (first, slots) in [
        (0, 2_048),
        (500, 2_048),
        (999, 2_048),
        (0, 0),
        (500, 3),
        (999, 512),
        (7, 1_000),
    ] {
        let mut tables = Tables::default();
        for value in 0..1_000 {
            tables.term_integer(value);
        }
        tables.term_integer(first);
        tables.fiat((0, 0));
        let case = Case {
            index: slots,
            ..Case::new(tables.words(), 0, 1_024, 4_000)
        };
        let found = left(Input::Words(case), 0..5);
        assert_eq!((found.number, found.answer[2]), (9, 1_000));
    }
}

/// By words with the word 0 and others, and by bytes.
fn compare_colliding(tables: &Tables, asked: u32) {
    let words = tables.words();
    let case = Case::new(words.clone(), asked, PROGRAM_CELLS, PROGRAM_POOL);
    assert_eq!(case.index, PROGRAM_INDEX);
    assert_eq!(left(Input::Words(case), 0..7).number, 0);
    let bytes = Input::Bytes {
        job: to_bytes(&words),
        asked,
        mode: None,
    };
    assert_eq!(left(bytes, 0..7).number, 0);
}

/// Terms of one slot, as many as fill the store, are all there and found.
#[test]
fn terms_of_one_slot() {
    on_deep_stack(|| {
        compare_colliding(&colliding::terms(PROGRAM_CELLS as u32), 0);
        compare_colliding(&colliding::added_calls(2_560, 3), 3);
        let last = colliding::last_calls(3_000, 900, 3);
        let case = Case::new(last.words(), 3, 3_100, 20_000);
        assert_eq!(left(Input::Words(case), 0..7).number, 0);
    });
}

/// The last of many terms of one slot equals one of them.
#[test]
fn equal_terms_of_one_slot() {
    let mut tables = colliding::terms(1_000);
    let terms = tables.of_mut(Table::Terms);
    let again = terms[998].clone();
    terms.push(again);
    for cells in [1_001, 1_024, 4_000] {
        let case = Case::new(tables.words(), 0, cells, 9_000);
        let found = left(Input::Words(case), 0..7);
        assert_eq!((found.number, found.answer[2]), (9, 1_000));
    }
}

/// One index is lent to call after call, as the one before left it.
#[test]
fn an_index_that_was_used() {
    const MOST: usize = 1 << 20;
    on_deep_stack(|| {
        let mut index = dirt::slots(4, MOST);
        let cases = (0..1_500).flat_map(|seed| [job(seed), counting_job(seed)]);
        for case in cases.filter(|case| case.index <= MOST) {
            let Ok(expected) = case.judge() else { continue };
            let [mut kinds, mut ends, mut pool] =
                [case.lent_kinds(), case.lent_ends(), case.lent_pool()];
            let mut answer = [0; ANSWER];
            // SAFETY: this thread has more than that stack.
            unsafe {
                check_here(
                    &case.job,
                    case.asked,
                    case.mode,
                    &mut kinds,
                    &mut ends,
                    &mut pool,
                    &mut index[..case.index],
                    &mut vec![1; case.scratch],
                    &mut answer,
                )
            };
            assert_eq!(answer, expected.answer);
            assert!(kinds == expected.kinds && ends == expected.ends && pool == expected.pool);
        }
    });
}

/// Many words, one job of many terms: the answer and the store are the same for each.
#[test]
fn many_words() {
    let mut random = Random::new(12);
    on_deep_stack(|| {
        let cases = (0..2_000).map(job);
        let many = |case: &Case| case.job[0] > 40 && case.judge().is_ok_and(|it| it.number() == 0);
        let cases: Vec<Case> = cases
            .filter(|case| case.job.len() > 12 && many(case))
            .take(8)
            .collect();
        assert_eq!(cases.len(), 8);
        for case in cases {
            let scratches: Vec<u32> = (0..300).map(|_| random.word() as u32).collect();
            left(Input::Words(case.with_fewest_slots()), scratches);
        }
    });
}

/// What a check of the job below takes; it is accepted.
#[track_caller]
fn accepted(check: impl FnOnce(&mut [u32]) -> u32) -> Duration {
    let mut answer = [0; ANSWER];
    let started = Instant::now();
    let number = check(&mut answer);
    let took = started.elapsed();
    assert_eq!(number, 0);
    assert_eq!(answer, [0, 2_732, 0, 0, 61, 0, 0, 0]);
    took
}

/// A job that collides where the word is 0 takes long with it; not so by the functions that put a random
/// word in its place.
#[test]
fn the_crate_s_own_word() {
    const STEPS: u32 = 60;
    let words = colliding::added_calls(2_560, STEPS as usize).words();
    let bytes = to_bytes(&words);
    let case = Case::new(words, STEPS, PROGRAM_CELLS, PROGRAM_POOL);
    // SAFETY: this thread has more than that stack.
    let here = |answer: &mut [u32]| unsafe { check_bytes_here(&bytes, STEPS, answer) };
    let aimed = accepted(|answer| on_deep_stack(|| here(answer)));
    let others = [
        accepted(|answer| check_bytes(&bytes, STEPS, answer)),
        accepted(|answer| check_bytes_mode(&bytes, STEPS, STRICT, answer)),
        accepted(|answer| checked(&case, answer)),
    ];
    let quick = |other: &Duration| *other * 5 < aimed;
    assert!(others.iter().all(quick), "{aimed:?}, {others:?}");
}

/// By words, with an index of zeros.
fn checked(case: &Case, answer: &mut [u32]) -> u32 {
    check(
        &case.job,
        case.asked,
        case.mode,
        &mut case.lent_kinds(),
        &mut case.lent_ends(),
        &mut case.lent_pool(),
        &mut vec![0; case.index],
        &mut vec![0; case.scratch],
        answer,
    )
}
