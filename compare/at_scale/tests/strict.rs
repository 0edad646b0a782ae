//! Strict mode by the library: each hand-made job in both modes, with all eight words and every word of
//! the store, by words and by bytes; other modes, and the order of 11.

#[macro_use]
#[path = "../../oracle/tests/strict_jobs/mod.rs"]
mod strict_jobs;

use at_scale::{Call, Input, Judge, Left, Source, Variant};
use generator::{Case, OTHER_MODES};
use job::limits::{PROGRAM_BYTES, PROGRAM_CELLS, PROGRAM_POOL};
use job::modes::{PLAIN, STRICT};
use job::{Table, Tables};
use oracle::on_deep_stack;
use strict_jobs::{Expected, HandMade};
use tools::to_bytes;

fn call(input: Input) -> Call {
    Call {
        source: Source::ConditionJob,
        variant: Variant::AsMade,
        judge: Judge::Rust,
        input,
        answer: 8,
        scratches: vec![4],
    }
}

/// What the library leaves, which is what the Rust leaves.
#[track_caller]
fn left(call: &Call) -> Left {
    let left = call.by_library(4);
    assert_eq!(call.by_rust().expect("few steps"), left);
    left
}

/// The lent words of a case with the job's terms and those that were added written over them.
fn written(case: &Case, tables: &Tables, expected: &Expected) -> [Vec<u32>; 3] {
    let [mut kinds, mut ends, mut pool] = [case.lent_kinds(), case.lent_ends(), case.lent_pool()];
    let own = tables.of(Table::Terms).iter();
    let terms = own.map(|cell| (cell.kind, cell.words.clone()));
    let mut end = 0;
    for (number, (kind, words)) in terms.chain(expected.added.clone()).enumerate() {
        pool[end..end + words.len()].copy_from_slice(&words);
        end += words.len();
        kinds[number] = kind;
        ends[number] = end as u32;
    }
    [kinds, ends, pool]
}

/// By words with the job's room, in a mode.
fn holds_by_words(made: &HandMade, mode: u32, expected: &Expected) {
    let asked = made.tables.count(Table::Proofs) - 1;
    let case = Case::new(made.tables.words(), asked, made.room.0, made.room.1).in_mode(mode);
    let [kinds, ends, pool] = written(&case, &made.tables, expected);
    let expected = Left {
        number: expected.answer[0],
        answer: expected.answer.to_vec(),
        kinds,
        ends,
        pool,
    };
    let found = left(&call(Input::Words(case)));
    assert_eq!(found, expected, "{}, mode {mode}", made.name);
}

/// By bytes, where the store of the host entry changes nothing: without a mode, in mode 0, in strict mode.
fn hold_by_bytes(made: &HandMade) {
    let job = to_bytes(&made.tables.words());
    if made.room.0 < 100 || made.room.1 < 100 || job.len() > PROGRAM_BYTES {
        return;
    }
    let asked = made.tables.count(Table::Proofs) - 1;
    for (mode, expected) in [
        (None, &made.plain),
        (Some(PLAIN), &made.plain),
        (Some(STRICT), &made.strict),
    ] {
        let job = job.clone();
        let found = left(&call(Input::Bytes { job, asked, mode }));
        assert_eq!(found.answer, expected.answer, "{}, {mode:?}", made.name);
        assert_eq!(found.number, expected.answer[0]);
    }
}

fn hold(jobs: Vec<HandMade>) {
    on_deep_stack(|| {
        for made in jobs {
            holds_by_words(&made, PLAIN, &made.plain);
            holds_by_words(&made, STRICT, &made.strict);
            hold_by_bytes(&made);
        }
    });
}

each_list!(hold_each_list);

/// Job A, and it with one thing wrong: the words, the asked proof, and what is refused without a mode.
fn refused_jobs() -> Vec<(Vec<u32>, u32, u32)> {
    let good = tools::bench_jobs::job_a().words();
    let changed = |place: usize, word: u32| {
        let mut words = good.clone();
        words[place] = word;
        words
    };
    vec![
        (good[1..].to_vec(), 0, 1),
        (Vec::new(), 0, 1),
        (changed(4, 1), 0, 2),
        (good.clone(), 2, 3),
        (good.clone(), u32::MAX, 3),
        (changed(17, 9), 0, 5),
        (changed(14, 8), 0, 6),
        (changed(21, 1), 0, 7),
    ]
}

/// 1, 2 and 3 come before 11, and 5 to 7 behind it; below 20 no lent word changes.
#[test]
fn number_11_right_after_3() {
    for (words, asked, number) in refused_jobs() {
        for mode in [PLAIN, STRICT].into_iter().chain(OTHER_MODES) {
            let case = Case::new(words.clone(), asked, 9, 30).in_mode(mode);
            let lent = [case.lent_kinds(), case.lent_ends(), case.lent_pool()];
            let found = left(&call(Input::Words(case)));
            let expected = if mode > STRICT && number > 3 {
                11
            } else {
                number
            };
            assert_eq!(found.number, expected, "mode {mode}");
            assert_eq!([found.kinds, found.ends, found.pool], lent);
            let job = to_bytes(&words);
            let mode = Some(mode);
            let found = left(&call(Input::Bytes { job, asked, mode }));
            assert_eq!(found.number, expected);
        }
    }
}

/// The whole word counts; there are no fields.
#[test]
fn number_11() {
    let words = tools::bench_jobs::job_a().words();
    for other in OTHER_MODES {
        let case = Case::new(words.clone(), 1, 9, 30).in_mode(other);
        let by_words = left(&call(Input::Words(case)));
        let (job, mode) = (to_bytes(&words), Some(other));
        let by_bytes = left(&call(Input::Bytes {
            job,
            asked: 1,
            mode,
        }));
        for found in [by_words, by_bytes] {
            assert_eq!(found.number, 11);
            assert_eq!(found.answer, [11, 0, 0, 0, 0, 0, 0, 0]);
        }
    }
}

/// 11 comes before 10 for what is lent, and behind 10 for an answer's buffer of another length.
#[test]
fn number_11_and_10() {
    let words = tools::bench_jobs::job_a().words();
    for (mode, number) in [
        (PLAIN, 10),
        (STRICT, 10),
        (2, 11),
        (256, 11),
        (u32::MAX, 11),
    ] {
        let short = Case::new(words.clone(), 1, 0, 0).in_mode(mode);
        assert_eq!(left(&call(Input::Words(short))).number, number);
        let good = Case::new(words.clone(), 1, 9, 30).in_mode(mode);
        let bytes = Input::Bytes {
            job: to_bytes(&words),
            asked: 1,
            mode: Some(mode),
        };
        for input in [Input::Words(good), bytes] {
            for length in [0, 7, 9] {
                let mut call = call(input.clone());
                call.answer = length;
                assert_eq!(left(&call).number, 10);
            }
        }
    }
}

/// Too many bytes for the host entry, and no whole words, are 1 in every mode.
#[test]
fn number_1_of_the_host_entry() {
    for mode in [PLAIN, STRICT].into_iter().chain(OTHER_MODES) {
        for length in [1, 47, PROGRAM_BYTES + 1, PROGRAM_BYTES + 4] {
            let input = Input::Bytes {
                job: vec![0; length],
                asked: 0,
                mode: Some(mode),
            };
            assert_eq!(left(&call(input)).number, 1);
        }
    }
}

/// The east flank in both modes, by words with the host entry's store and by bytes.
#[test]
fn the_east_flank() {
    let words = tools::bench_jobs::east_flank().words();
    for (asked, mode, answer) in [
        (1, PLAIN, [0, 5, 2, 0, 1, 0, 0, 0]),
        (3, PLAIN, [0, 5, 3, 1, 1, 0, 0, 0]),
        (1, STRICT, [0, 5, 2, 0, 1, 0, 0, 0]),
        (3, STRICT, [46, 5, 6, 0, 0, 0, 0, 0]),
    ] {
        let case = Case::new(words.clone(), asked, PROGRAM_CELLS, PROGRAM_POOL).in_mode(mode);
        let (job, mode) = (to_bytes(&words), Some(mode));
        for input in [Input::Words(case), Input::Bytes { job, asked, mode }] {
            assert_eq!(left(&call(input)).answer, answer);
        }
    }
}
