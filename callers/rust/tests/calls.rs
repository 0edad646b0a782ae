//! All entries, called as a host calls them: jobs A and B of document 01, the tilt counts, the east flank in both modes, and arrays of any length.

use std::collections::BTreeSet;
use std::fs;
use std::path::Path;

use sizercobalt::{ANSWER, BYTES, Mode, check, check_bytes, check_bytes_mode, slots};

/// Job B's terms as a store holds them: 7, 8, name 4 of the first, name 4 of the second.
const TERMS_B: [&[u32]; 3] = [
    &[0, 0, 2, 2],
    &[3, 6, 8, 10],
    &[2, 7, 0, 2, 8, 0, 4, 0, 4, 1],
];

/// What document 01 says of job B's proofs in examples/job_b.bin, in their order.
const ANSWERS_B: [[u32; ANSWER]; 13] = [
    [0, 4, 0, 1, 1, 0, 0, 0],
    [0, 4, 0, 0, 1, 0, 0, 0],
    [0, 4, 2, 2, 1, 0, 0, 0],
    [33, 4, 3, 3, 3, 0, 0, 0],
    [0, 4, 1, 0, 1, 0, 0, 0],
    [0, 4, 0, 0, 2, 0, 0, 0],
    [21, 4, 6, 1, 0, 0, 0, 0],
    [20, 4, 7, 0, 1, 1, 0, 0],
    [0, 4, 2, 3, 2, 0, 0, 0],
    [23, 4, 9, 1, 1, 0, 0, 0],
    [24, 4, 10, 1, 0, 0, 0, 0],
    [25, 4, 11, 2, 3, 0, 0, 0],
    [26, 4, 12, 0, 0, 0, 0, 0],
];

fn bytes(file: &str) -> Vec<u8> {
    let examples = Path::new(env!("CARGO_MANIFEST_DIR")).join("../../examples");
    fs::read(examples.join(file)).expect("an example")
}

fn words(file: &str) -> Vec<u32> {
    let bytes = bytes(file);
    let (words, rest) = bytes.as_chunks();
    assert!(rest.is_empty());
    words.iter().copied().map(u32::from_le_bytes).collect()
}

/// A word of a lent array before the call; each place has its own.
fn dirt(array: usize, place: usize) -> u32 {
    (0xd000_0000 + (array << 24) + place) as u32
}

/// What is lent for a call: kinds, ends, pool, scratch, the answer's buffer and the index.
struct Lent([Vec<u32>; 6]);

impl Lent {
    /// With as many slots as the index needs.
    fn of([kinds, ends, pool, scratch, answer]: [usize; 5]) -> Lent {
        Lent::with_index([kinds, ends, pool, scratch, answer, slots(kinds)])
    }

    fn with_index(lengths: [usize; 6]) -> Lent {
        let mut array = 0;
        Lent(lengths.map(|length| {
            array += 1;
            (0..length).map(|place| dirt(array, place)).collect()
        }))
    }

    fn check(&mut self, job: &[u32], asked: u32) -> u32 {
        self.check_mode(job, asked, Mode::Plain)
    }

    fn check_mode(&mut self, job: &[u32], asked: u32, mode: impl Into<u32>) -> u32 {
        let [kinds, ends, pool, scratch, answer, index] = &mut self.0;
        check(job, asked, mode, kinds, ends, pool, index, scratch, answer)
    }

    fn answer(&self) -> &[u32] {
        &self.0[4]
    }

    /// The three arrays begin with these words, and hold what was lent past them.
    #[track_caller]
    fn holds(&self, store: [&[u32]; 3]) {
        for (array, (lent, written)) in self.0.iter().zip(store).enumerate() {
            assert_eq!(lent[..written.len()], *written);
            for (place, &word) in lent.iter().enumerate().skip(written.len()) {
                assert_eq!(word, dirt(array + 1, place));
            }
        }
    }

    /// Neither the three arrays nor the answer have changed.
    #[track_caller]
    fn is_unwritten(&self) {
        self.holds([&[]; 3]);
        for (place, &word) in self.answer().iter().enumerate() {
            assert_eq!(word, dirt(5, place));
        }
    }
}

/// The answer of a number below 20 without a field.
fn refused(number: u32) -> [u32; ANSWER] {
    [number, 0, 0, 0, 0, 0, 0, 0]
}

#[track_caller]
fn bytes_give(job: &[u8], asked: u32, expected: [u32; ANSWER]) {
    let mut answer = [dirt(5, 0); ANSWER];
    assert_eq!(check_bytes(job, asked, &mut answer), expected[0]);
    assert_eq!(answer, expected);
}

#[track_caller]
fn bytes_mode_give(job: &[u8], asked: u32, mode: impl Into<u32>, expected: [u32; ANSWER]) {
    let mut answer = [dirt(5, 0); ANSWER];
    assert_eq!(check_bytes_mode(job, asked, mode, &mut answer), expected[0]);
    assert_eq!(answer, expected);
}

/// By bytes, and by words with a little more room than its terms take.
#[track_caller]
fn east_flank_gives(asked: u32, mode: impl Into<u32>, expected: [u32; ANSWER]) {
    let mode: u32 = mode.into();
    bytes_mode_give(&bytes("east_flank.bin"), asked, mode, expected);
    let mut lent = Lent::of([6, 6, 20, 20, ANSWER]);
    let number = lent.check_mode(&words("east_flank.bin"), asked, mode);
    assert_eq!(number, expected[0]);
    assert_eq!(lent.answer(), expected);
    match number {
        3 | 11 => lent.holds([&[]; 3]),
        _ => lent.holds(TERMS_EAST_FLANK),
    }
}

#[track_caller]
fn words_give(job: &[u32], asked: u32, lengths: [usize; 4], expected: [u32; ANSWER]) -> Lent {
    let [kinds, ends, pool, scratch] = lengths;
    let mut lent = Lent::of([kinds, ends, pool, scratch, ANSWER]);
    assert_eq!(lent.check(job, asked), expected[0]);
    assert_eq!(lent.answer(), expected);
    lent
}

#[test]
fn job_a_as_bytes() {
    bytes_give(&bytes("job_a.bin"), 1, [0, 1, 0, 0, 2, 0, 0, 0]);
    bytes_give(&bytes("job_a.bin"), 0, [0, 1, 0, 0, 1, 0, 0, 0]);
    bytes_give(&bytes("job_a.bin"), 2, refused(3));
}

#[test]
fn job_a_as_words() {
    let lengths = [5, 5, 20, 14];
    let lent = words_give(&words("job_a.bin"), 1, lengths, [0, 1, 0, 0, 2, 0, 0, 0]);
    lent.holds([&[0], &[3], &[2, 7, 0]]);
    let lent = words_give(&words("job_a.bin"), 2, lengths, refused(3));
    lent.holds([&[]; 3]);
}

#[test]
fn job_b_as_bytes() {
    for (asked, expected) in ANSWERS_B.into_iter().enumerate() {
        bytes_give(&bytes("job_b.bin"), asked as u32, expected);
    }
}

#[test]
fn job_b_as_words() {
    for (asked, expected) in ANSWERS_B.into_iter().enumerate() {
        let lent = words_give(&words("job_b.bin"), asked as u32, [9, 9, 30, 50], expected);
        lent.holds(TERMS_B);
    }
}

/// The tilt counts' terms: 1, 3, -5, tilt(1, 3), tilt(1, -5), -2, tilt(1, -2), level(1); then 5, the product -10 and 4, which the check adds.
const TERMS_TILT: [&[u32]; 3] = [
    &[0, 0, 0, 2, 2, 0, 2, 2, 0, 0, 0],
    &[3, 6, 9, 12, 15, 18, 21, 23, 26, 29, 32],
    &[
        2,
        1,
        0,
        2,
        3,
        0,
        2,
        4_294_967_291,
        4_294_967_295,
        4,
        0,
        1,
        4,
        0,
        2,
        2,
        4_294_967_294,
        4_294_967_295,
        4,
        0,
        5,
        5,
        0, //
        2,
        5,
        0,
        2,
        4_294_967_286,
        4_294_967_295,
        2,
        4,
        0,
    ],
];

#[test]
fn tilt_counts() {
    let accepted = [0, 11, 7, 5, 3, 0, 0, 0];
    bytes_give(&bytes("tilt.bin"), 3, accepted);
    let lent = words_give(&words("tilt.bin"), 3, [11, 11, 32, 30], accepted);
    lent.holds(TERMS_TILT);
}

/// The product finds no cell, or too few pool words.
#[test]
fn tilt_counts_without_room() {
    let store = [
        &TERMS_TILT[0][..9],
        &TERMS_TILT[1][..9],
        &TERMS_TILT[2][..26],
    ];
    for lengths in [[9, 9, 32, 30], [11, 11, 28, 30]] {
        let lent = words_give(&words("tilt.bin"), 3, lengths, [53, 9, 26, 0, 0, 0, 0, 0]);
        lent.holds(store);
    }
}

/// The east flank's terms: 2^24, 2^24 + 3, the narrowing of each, the singles of the first. The check adds none.
const TERMS_EAST_FLANK: [&[u32]; 3] = [
    &[0, 0, 2, 2, 2],
    &[3, 6, 8, 10, 12],
    &[2, 16_777_216, 0, 2, 16_777_219, 0, 11, 0, 11, 1, 7, 0],
];

/// The second position is exact by no row: strict mode refuses its step.
#[test]
fn east_flank_in_both_modes() {
    let accepted = [[0, 5, 2, 0, 1, 0, 0, 0], [0, 5, 3, 1, 1, 0, 0, 0]];
    east_flank_gives(1, Mode::Plain, accepted[0]);
    east_flank_gives(3, Mode::Plain, accepted[1]);
    east_flank_gives(1, Mode::Strict, accepted[0]);
    east_flank_gives(3, Mode::Strict, [46, 5, 6, 0, 0, 0, 0, 0]);
    bytes_give(&bytes("east_flank.bin"), 3, accepted[1]);
}

/// The whole word counts; 3 comes before 11, and 11 before 10 for what is lent.
#[test]
fn other_modes() {
    for mode in [2, 255, 256, 257, 65_536, 1 << 31, u32::MAX] {
        east_flank_gives(3, mode, refused(11));
        east_flank_gives(4, mode, refused(3));
        bytes_mode_give(&[], 0, mode, refused(1));
        bytes_mode_give(&[0; BYTES + 4], 0, mode, refused(1));
        let mut lent = Lent::of([0, 0, 0, 0, ANSWER]);
        assert_eq!(lent.check_mode(&words("job_b.bin"), 0, mode), 11);
        assert_eq!(lent.answer(), refused(11));
    }
}

/// C and W of just the terms' size, and scratch of just 2 x (C + J) words, are enough; one word less is 10.
#[test]
fn just_enough_is_lent() {
    let job = words("job_b.bin");
    let lent = words_give(&job, 8, [4, 4, 10, 34], ANSWERS_B[8]);
    lent.holds(TERMS_B);
    for short in 0..4 {
        let mut lengths = [4, 4, 10, 34];
        lengths[short] -= 1;
        words_give(&job, 8, lengths, refused(10)).holds([&[]; 3]);
    }
}

#[test]
fn answer_of_another_length() {
    for length in [0, 1, 7, 9, 16] {
        let mut lent = Lent::of([9, 9, 30, 50, length]);
        assert_eq!(lent.check(&words("job_b.bin"), 0), 10);
        lent.is_unwritten();
        assert_eq!(lent.check(&[], 0), 10);
        lent.is_unwritten();
        for job in [bytes("job_b.bin"), Vec::new(), vec![0; BYTES + 1]] {
            assert_eq!(check_bytes(&job, 0, &mut lent.0[4]), 10);
            lent.is_unwritten();
            for mode in [0u32, 1, 2] {
                assert_eq!(check_bytes_mode(&job, 0, mode, &mut lent.0[4]), 10);
                lent.is_unwritten();
            }
        }
        for mode in [1, 2, u32::MAX] {
            assert_eq!(lent.check_mode(&words("job_b.bin"), 0, mode), 10);
            lent.is_unwritten();
        }
    }
}

#[test]
fn no_job_and_one_too_long() {
    bytes_give(&[], 0, refused(1));
    bytes_give(&[0; 47], 0, refused(1));
    bytes_give(&[0; 48], 0, refused(3));
    bytes_give(&[0; BYTES + 1], 0, refused(1));
    bytes_give(&[0; BYTES + 4], 0, refused(1));
    words_give(&[], 0, [9, 9, 30, 50], refused(1)).holds([&[]; 3]);
}

/// A pool of unused words makes a job of just the longest length; four bytes more are 1.
#[test]
fn the_longest_job() {
    let mut job = vec![0; BYTES];
    let pool = (BYTES / 4 - 12) as u32;
    job[44..48].copy_from_slice(&pool.to_le_bytes());
    bytes_give(&job, 0, refused(3));
    job.extend([0; 4]);
    job[44..48].copy_from_slice(&(pool + 1).to_le_bytes());
    bytes_give(&job, 0, refused(1));
}

/// Nothing lent is 10 for a job that has terms or proofs, and comes after what is wrong with the job.
#[test]
fn empty_arrays() {
    let job = words("job_b.bin");
    for array in 0..4 {
        let mut lengths = [9, 9, 30, 50];
        lengths[array] = 0;
        words_give(&job, 0, lengths, refused(10)).holds([&[]; 3]);
    }
    words_give(&job, 0, [0; 4], refused(10));
    words_give(&job, 13, [0; 4], refused(3));
    words_give(&[], 0, [0; 4], refused(1));
    words_give(&[0; 12], 0, [0; 4], refused(3));
    let mut lent = Lent::of([0; 5]);
    assert_eq!(lent.check(&job, 0), 10);
    assert_eq!(lent.check(&[], 0), 10);
    assert_eq!(check_bytes(&[], 0, &mut []), 10);
}

#[test]
fn slots_for_cells() {
    for (cells, expected) in [
        (0, 1),
        (1, 2),
        (2, 4),
        (3, 8),
        (4, 8),
        (5, 16),
        (4_096, 8_192),
    ] {
        assert_eq!(slots(cells), expected);
    }
    assert_eq!(slots(65_535), 131_072);
    assert_eq!(slots(65_536), 131_072);
    assert_eq!(slots(65_537), 262_144);
}

/// Job B's ninth proof with arrays of these lengths and an index of so many slots.
#[track_caller]
fn index_gives(lengths: [usize; 4], index: usize, expected: [u32; ANSWER]) -> Lent {
    let [kinds, ends, pool, scratch] = lengths;
    let mut lent = Lent::with_index([kinds, ends, pool, scratch, ANSWER, index]);
    assert_eq!(lent.check(&words("job_b.bin"), 8), expected[0]);
    assert_eq!(lent.answer(), expected);
    lent
}

/// Too few slots and counts that are no power of two are 12, and the store stays; others make no difference.
#[test]
fn slots_of_the_index() {
    for cells in [4, 5, 8, 9, 100] {
        let lengths = [cells, cells, 30, 2 * (cells + 13)];
        let fewest = slots(cells);
        for index in [
            0,
            1,
            2,
            2 * cells - 1,
            2 * cells + 1,
            3 * cells,
            fewest / 2,
            fewest - 1,
            fewest + 1,
            3 * fewest,
        ] {
            index_gives(lengths, index, refused(12)).holds([&[]; 3]);
        }
        for index in [fewest, 2 * fewest, 64 * fewest] {
            index_gives(lengths, index, ANSWERS_B[8]).holds(TERMS_B);
        }
    }
}

/// 12 comes behind 10 and what is wrong with the job.
#[test]
fn order_of_12() {
    for index in [0, 1, 3, 7] {
        for short in 0..4 {
            let mut lengths = [4, 4, 10, 34];
            lengths[short] -= 1;
            index_gives(lengths, index, refused(10)).holds([&[]; 3]);
        }
        index_gives([4, 4, 10, 34], index, refused(12)).holds([&[]; 3]);
        for (job, asked, mode, number) in [
            (&words("job_b.bin")[..], 13, 0u32, 3),
            (&words("job_b.bin")[1..], 0, 0, 1),
            (&words("job_b.bin"), 0, 2, 11),
        ] {
            let mut lent = Lent::with_index([4, 4, 10, 34, ANSWER, index]);
            assert_eq!(lent.check_mode(job, asked, mode), number);
            assert_eq!(lent.answer(), refused(number));
        }
    }
}

/// An index is lent as the last call left it.
#[test]
fn an_index_that_was_used() {
    let mut lent = Lent::of([9, 9, 30, 50, ANSWER]);
    for (asked, expected) in ANSWERS_B.into_iter().enumerate() {
        assert_eq!(lent.check(&words("job_b.bin"), asked as u32), expected[0]);
        assert_eq!(lent.answer(), expected);
        lent.holds(TERMS_B);
    }
}

/// The index's first slot has another word at each call. It is seen where the call does no more than to see that the answer has another length.
#[test]
fn a_random_first_slot() {
    let word = || {
        let mut lent = Lent::of([9, 9, 30, 50, ANSWER - 1]);
        assert_eq!(lent.check(&words("job_b.bin"), 0), 10);
        lent.is_unwritten();
        lent.0[5][0]
    };
    let seen: BTreeSet<u32> = (0..20).map(|_| word()).collect();
    assert!(seen.len() > 15, "{seen:?}");
}
