//! Strict mode, judged by the published text on a rewritten job: each hand-made job in both modes, with
//! all eight words and every word of the store; other modes, and the order of 11.

mod common;
#[macro_use]
mod strict_jobs;

use common::{Ran, Room, WIDE, expect, run_words_mode};
use job::limits::PROGRAM_BYTES;
use job::modes::{PLAIN, STRICT};
use job::{Table, Tables};
use oracle::{check, check_bytes, check_bytes_mode};
use strict_jobs::HandMade;

/// Both modes answer as the jobs say.
#[track_caller]
fn hold(jobs: Vec<HandMade>) {
    for made in jobs {
        let (cells, pool) = made.room;
        let asked = made.tables.count(Table::Proofs) - 1;
        for (mode, expected) in [(PLAIN, &made.plain), (STRICT, &made.strict)] {
            let room = Room { cells, pool };
            let ran = run_words_mode(&made.tables.words(), asked, mode, &room);
            let Ran { answer, added } = ran;
            assert_eq!(answer, expected.answer, "{}, mode {mode}", made.name);
            assert_eq!(added, expected.added, "{}, mode {mode}", made.name);
        }
    }
}

each_list!(hold_each_list);

/// One literal and its fiat.
fn small() -> Tables {
    let mut tables = Tables::default();
    tables.term_integer(1);
    tables.fiat((0, 0));
    tables
}

const OTHER_MODES: [u32; 6] = [2, 255, 256, 257, 1 << 31, u32::MAX];

/// The whole word counts; there are no fields.
#[test]
fn number_11() {
    for mode in OTHER_MODES {
        let ran = run_words_mode(&small().words(), 0, mode, &WIDE);
        expect(ran, 11, 0, &[], &[]);
    }
    for mode in [PLAIN, STRICT] {
        let ran = run_words_mode(&small().words(), 0, mode, &WIDE);
        expect(ran, 0, 1, &[0, 0, 1], &[]);
    }
}

/// 1, 2 and 3 come before 11; 5 to 10 behind it.
#[test]
fn number_11_right_after_3() {
    let good = small().words();
    let mut too_large = good.clone();
    too_large[4] = 1;
    let mut ends_fall = good.clone();
    ends_fall[15] = 9;
    let mut unknown_kind = good.clone();
    unknown_kind[13] = 8;
    let mut out_of_range = good.clone();
    out_of_range[19] = 1;
    let none = Room { cells: 0, pool: 0 };
    for mode in OTHER_MODES {
        let run = |words: &[u32], asked, room| run_words_mode(words, asked, mode, room);
        expect(run(&[], 0, &WIDE), 1, 0, &[], &[]);
        expect(run(&good[1..], 0, &WIDE), 1, 0, &[], &[]);
        expect(run(&too_large, 0, &WIDE), 2, 0, &[], &[]);
        expect(run(&good, 1, &WIDE), 3, 0, &[], &[]);
        for words in [&ends_fall, &unknown_kind, &out_of_range] {
            expect(run(words, 0, &WIDE), 11, 0, &[], &[]);
        }
        expect(run(&good, 0, &none), 11, 0, &[], &[]);
    }
    let numbers = [&ends_fall, &unknown_kind, &out_of_range]
        .map(|words| run_words_mode(words, 0, STRICT, &WIDE).answer[0]);
    assert_eq!(numbers, [5, 6, 7]);
    expect(run_words_mode(&good, 0, STRICT, &none), 10, 0, &[], &[]);
}

/// An answer's buffer of seven words is 10 at once, whatever the mode.
#[test]
fn number_10_of_the_answer_comes_before_11() {
    for mode in [PLAIN, STRICT, 2, u32::MAX] {
        let mut answer = [7; 7];
        let (mut kinds, mut ends, mut pool) = ([7; 1], [7; 1], [7; 3]);
        let words = small().words();
        let number = check(
            &words,
            0,
            mode,
            &mut kinds,
            &mut ends,
            &mut pool,
            2,
            4,
            &mut answer,
        );
        assert_eq!(number, Ok(10));
        let bytes = bytes(&words);
        assert_eq!(check_bytes_mode(&bytes, 0, mode, &mut answer), Ok(10));
        assert_eq!(answer, [7; 7]);
    }
}

fn bytes(words: &[u32]) -> Vec<u8> {
    words.iter().flat_map(|word| word.to_le_bytes()).collect()
}

/// At the host entry bytes that are too many, or no whole words, are 1 before 11.
#[test]
fn number_11_of_the_host_entry() {
    let good = bytes(&small().words());
    let long = vec![0; PROGRAM_BYTES + 4];
    for mode in OTHER_MODES {
        let number = |job: &[u8], asked| {
            let mut answer = [7; 8];
            let number = check_bytes_mode(job, asked, mode, &mut answer).expect("few steps");
            assert_eq!(answer, common::answer(number, 0, &[]));
            number
        };
        assert_eq!(number(&long, 0), 1);
        assert_eq!(number(&good[1..], 0), 1);
        assert_eq!(number(&[0; 48], 0), 3);
        assert_eq!(number(&good, 1), 3);
        assert_eq!(number(&good, 0), 11);
    }
}

/// The first host entry is the other one in mode 0, also where the modes differ.
#[test]
fn the_first_host_entry_is_at_mode_0() {
    for made in strict_jobs::number_46() {
        let job = bytes(&made.tables.words());
        let (mut first, mut other, mut strict) = ([7; 8], [7; 8], [7; 8]);
        check_bytes(&job, 1, &mut first).expect("few steps");
        check_bytes_mode(&job, 1, PLAIN, &mut other).expect("few steps");
        check_bytes_mode(&job, 1, STRICT, &mut strict).expect("few steps");
        assert_eq!([first, other], [made.plain.answer; 2], "{}", made.name);
        assert_eq!(strict, made.strict.answer, "{}", made.name);
    }
}
