//! 12 and its order: the index's slots, beside every other number below 20.

mod common;

use common::{Room, WIDE, expect, run_with_index};
use job::limits::{PROGRAM_CELLS, PROGRAM_INDEX, index_fits, index_slots};
use job::modes::{PLAIN, STRICT};
use job::{Table, Tables};

/// One literal and its fiat.
fn small() -> Tables {
    let mut tables = Tables::default();
    tables.term_integer(1);
    tables.fiat((0, 0));
    tables
}

/// Lengths that are no power of two.
const NO_POWERS: [usize; 9] = [0, 3, 5, 6, 7, 12, 1_000, 65_535, 65_537];

/// With so many cells and slots a job that is accepted otherwise is 12 or not.
#[track_caller]
fn is_12(cells: usize, slots: usize, refused: bool) {
    let room = Room { cells, pool: 9 };
    for mode in [PLAIN, STRICT] {
        let ran = run_with_index(&small().words(), 0, mode, &room, slots);
        match refused {
            true => expect(ran, 12, 0, &[], &[]),
            false => expect(ran, 0, 1, &[0, 0, 1], &[]),
        }
    }
}

#[test]
fn fewer_slots_than_twice_the_cells() {
    for cells in [1, 2, 3, 4, 5, 8, 9, 100, 128, 4_096, 65_535, 65_536] {
        is_12(cells, 0, true);
        is_12(cells, 1, true);
        is_12(cells, 2 * cells - 1, true);
        is_12(cells, index_slots(cells) / 2, true);
        is_12(cells, index_slots(cells), false);
        is_12(cells, 2 * index_slots(cells), false);
        is_12(cells, 16 * index_slots(cells), false);
    }
}

/// Just twice the cells passes where that is a power of two.
#[test]
fn twice_the_cells() {
    for cells in [1, 2, 4, 8, 128, 4_096, 65_536] {
        assert_eq!(index_slots(cells), 2 * cells);
    }
    for cells in [3, 5, 6, 7, 9, 100, 4_095] {
        is_12(cells, 2 * cells, true);
        is_12(cells, 3 * cells, true);
    }
}

#[test]
fn no_power_of_two() {
    for slots in NO_POWERS {
        is_12(1, slots, true);
    }
    for power in 2..20 {
        is_12(1, (1 << power) - 1, true);
        is_12(1, 1 << power, false);
        is_12(1, (1 << power) + 1, true);
    }
    is_12(4, 3 * 4, true);
}

/// C counts, not the job's terms.
#[test]
fn the_lent_cells_count() {
    is_12(9, 2, true);
    is_12(9, 16, true);
    is_12(9, 32, false);
}

/// No job with C = 0 comes so far: its proofs have no terms to claim.
#[test]
fn no_cells() {
    assert!(!index_fits(0, 0));
    assert!(index_fits(1, 0));
    assert_eq!(index_slots(0), 1);
    let none = Room { cells: 0, pool: 0 };
    let ran = run_with_index(&small().words(), 0, PLAIN, &none, 0);
    expect(ran, 10, 0, &[], &[]);
}

#[test]
fn the_program_s_index_is_legal() {
    assert!(index_fits(PROGRAM_INDEX, PROGRAM_CELLS));
}

/// Jobs that are refused: the words, the asked proof, the mode, the number and its cell.
fn refused_jobs() -> Vec<(Vec<u32>, u32, u32, u32, u32)> {
    let good = small().words();
    let changed = |place: usize, word: u32| {
        let mut words = good.clone();
        words[place] = word;
        words
    };
    let mut no_rows = small();
    no_rows.primitive(0, 4);
    no_rows.row(0, 0, &[]);
    let mut equal = small();
    equal.term_integer(1);
    vec![
        (good[1..].to_vec(), 0, PLAIN, 1, 0),
        (changed(4, 1), 0, PLAIN, 2, 0),
        (good.clone(), 1, PLAIN, 3, 0),
        (good.clone(), 0, 2, 11, 0),
        (changed(15, 6), 0, PLAIN, 5, 0),
        (changed(13, 8), 0, PLAIN, 6, 1),
        (changed(19, 1), 0, PLAIN, 7, 1),
        (no_rows.words(), 0, STRICT, 8, 2),
        (equal.words(), 0, PLAIN, 9, 1),
    ]
}

/// Every other number below 20 wins over 12.
#[test]
fn behind_all_others() {
    for (words, asked, mode, number, cell) in refused_jobs() {
        for index in [index_slots(WIDE.cells), 0, 1, 3, 256, 399, 401] {
            let ran = run_with_index(&words, asked, mode, &WIDE, index);
            expect(ran, number, 0, &[cell], &[]);
        }
    }
}

/// Each kind of equal cells is 9, whatever the index.
#[test]
fn equal_cells_and_a_bad_index() {
    let mut rows = small();
    let primitive = rows.primitive(1, 4);
    rows.row(primitive, 0, &[0]);
    rows.row(primitive, 0, &[0]);
    let mut names = small();
    names.rule_step((0, 0), 4, &[], &[(7, 0), (7, 0)]);
    let mut many = small();
    for name in 0..90 {
        many.term_variable(name);
    }
    let last = many.term_variable(89);
    for (tables, cell) in [(rows, 3), (names, 2), (many, last)] {
        for index in [0, 1, 3, 64, 399, 401] {
            let ran = run_with_index(&tables.words(), 0, PLAIN, &WIDE, index);
            expect(ran, 9, 0, &[cell], &[]);
        }
    }
}

/// Room that is refused is 10, whatever the index.
#[test]
fn no_room_and_a_bad_index() {
    let mut tables = small();
    tables.term_integer(2);
    assert_eq!(tables.count(Table::Terms), 2);
    for (cells, pool) in [(0, 9), (1, 9), (2, 5), (65_537, 9)] {
        for index in [0, 1, 2, 3, 5] {
            let ran = run_with_index(&tables.words(), 0, PLAIN, &Room { cells, pool }, index);
            expect(ran, 10, 0, &[], &[]);
        }
    }
}

/// Arrays of unequal length and short scratch are 10; the lent words stay.
#[test]
fn unequal_arrays_and_a_bad_index() {
    let words = small().words();
    for (kinds, ends, scratch, number) in [
        (1, 2, 9, 10),
        (2, 1, 9, 10),
        (1, 1, 3, 10),
        (1, 1, 4, 12),
        (2, 2, 6, 12),
    ] {
        let mut lent = [vec![7; kinds], vec![8; ends], vec![9; 3]];
        let mut answer = [5; 8];
        for index in [0, 1, 3] {
            let [kinds, ends, pool] = &mut lent;
            let found = oracle::check(
                &words,
                0,
                PLAIN,
                kinds,
                ends,
                pool,
                index,
                scratch,
                &mut answer,
            );
            assert_eq!(found, Ok(number));
            assert_eq!(answer, common::answer(number, 0, &[]));
        }
        assert_eq!(lent, [vec![7; kinds], vec![8; ends], vec![9; 3]]);
    }
}
