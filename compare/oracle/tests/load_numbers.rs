//! 1 to 10: a hand-made job for each, its field, and that no lent word changes.

mod common;

use common::{Room, WIDE, expect, run, run_asked, run_in, run_words};
use job::limits;
use job::modes::PLAIN;
use job::{Table, Tables};
use oracle::{check, check_bytes};

const F: u32 = 4;

/// One literal and its fiat.
fn small() -> Tables {
    let mut tables = Tables::default();
    tables.term_integer(1);
    tables.fiat((0, 0));
    tables
}

#[track_caller]
fn refused(words: &[u32], number: u32, cell: u32) {
    expect(run_words(words, 0, &WIDE), number, 0, &[cell], &[]);
}

#[test]
fn number_1() {
    refused(&[], 1, 0);
    refused(&[0; 11], 1, 0);
    let mut longer = small().words();
    longer.push(0);
    refused(&longer, 1, 0);
    let mut shorter = small().words();
    shorter.pop();
    refused(&shorter, 1, 0);
    // Sizes are summed without wrapping.
    refused(&[u32::MAX; 12], 1, 0);
    let mut wraps = vec![0; 12];
    wraps[0] = 1 << 31;
    refused(&wraps, 1, 0);
}

#[test]
fn number_1_of_the_host_entry() {
    let mut answer = [7; 8];
    assert_eq!(check_bytes(&[0; 47], 0, &mut answer), Ok(1));
    assert_eq!(answer, common::answer(1, 0, &[]));
    assert_eq!(check_bytes(&[0; 49], 0, &mut answer), Ok(1));
    assert_eq!(check_bytes(&[0; 48], 0, &mut answer), Ok(3));
    let mut long = vec![0; limits::PROGRAM_BYTES + 4];
    let pool = (long.len() / 4 - 12) as u32;
    long[44..48].copy_from_slice(&pool.to_le_bytes());
    assert_eq!(check_bytes(&long, 0, &mut answer), Ok(1));
    long.truncate(limits::PROGRAM_BYTES);
    long[44..48].copy_from_slice(&(pool - 1).to_le_bytes());
    assert_eq!(check_bytes(&long, 0, &mut answer), Ok(3));
}

/// A job of as many empty cells as the sizes say.
fn with_size(place: usize, size: u32) -> Vec<u32> {
    let mut words = vec![0; 12];
    words[place] = size;
    let cells: u32 = [0, 1, 2, 3, 5, 6, 7, 8, 9, 10]
        .map(|place| words[place])
        .iter()
        .sum();
    let length = 12 + 2 * cells as usize + words[11] as usize;
    words.resize(length, 0);
    words
}

#[test]
fn number_2() {
    for (place, largest) in [
        (0, limits::TERMS),
        (1, limits::CELLS),
        (2, limits::CELLS),
        (3, limits::CELLS),
        (5, limits::CELLS),
        (6, limits::CELLS),
        (7, limits::CELLS),
        (8, limits::CELLS),
        (9, limits::CELLS),
        (11, limits::POOL),
    ] {
        refused(&with_size(place, largest), 3, 0);
        refused(&with_size(place, largest + 1), 2, 0);
    }
    refused(&with_size(10, limits::CELLS), 6, 0);
    refused(&with_size(10, limits::CELLS + 1), 2, 0);
    // G above A, and G above its largest.
    let mut globals = with_size(3, 257);
    globals[4] = 256;
    refused(&globals, 3, 0);
    globals[4] = 257;
    refused(&globals, 2, 0);
    let mut above = with_size(3, 5);
    above[4] = 6;
    refused(&above, 2, 0);
}

#[test]
fn number_3() {
    expect(run_asked(&small(), 1), 3, 0, &[], &[]);
    expect(run_asked(&small(), u32::MAX), 3, 0, &[], &[]);
    expect(run_words(&[0; 12], 0, &WIDE), 3, 0, &[], &[]);
}

#[test]
fn number_5() {
    let mut tables = small();
    tables.term_integer(2);
    let words = tables.words();
    assert_eq!(words[15..18], [3, 6, 8]);
    let mut falls = words.clone();
    falls[16] = 2;
    refused(&falls, 5, 0);
    let mut short = words.clone();
    short[17] = 7;
    refused(&short, 5, 0);
    let mut past = words;
    past[17] = 9;
    refused(&past, 5, 0);
}

/// Appends one cell to a small job; gives the words and the cell's number over all tables.
fn with_cell(table: Table, kind: u32, words: &[u32]) -> (Vec<u32>, u32) {
    let mut tables = Tables::default();
    tables.term_integer(1);
    tables.integer(1);
    tables.constructor(F, &[]);
    tables.constructor(F, &[0]);
    tables.variable(F);
    tables.bare(0);
    tables.expression_action(0);
    tables.function_without_merge(F);
    tables.primitive(1, F);
    tables.primitive(2, F);
    tables.row(0, 0, &[]);
    tables.normaliser(F, 0);
    tables.rule(F, &[], &[]);
    tables.fiat((0, 0));
    let before: u32 = Table::ALL
        .iter()
        .take(table as usize + 1)
        .map(|&table| tables.count(table))
        .sum();
    tables.push(table, kind, words);
    (tables.words(), before)
}

#[track_caller]
fn cell_refused(number: u32, table: Table, kind: u32, words: &[u32]) {
    let (words, cell) = with_cell(table, kind, words);
    refused(&words, number, cell);
}

#[track_caller]
fn cell_passes(table: Table, kind: u32, words: &[u32]) {
    let (words, _) = with_cell(table, kind, words);
    expect(run_words(&words, 0, &WIDE), 0, words[0], &[0, 0, 1], &[]);
}

#[test]
fn number_6_literals() {
    for table in [Table::Terms, Table::Expressions] {
        for words in [
            &[][..],
            &[2, 1],
            &[2, 1, 0, 0],
            &[0, 1, 0],
            &[0, 0, 1],
            &[1, 2, 0],
            &[1, 0, 1],
            &[3, 5, 1],
            &[4, 0, 0],
            &[u32::MAX, 0, 0],
        ] {
            cell_refused(6, table, 0, words);
        }
        for words in [
            [0, 0, 0],
            [1, 0, 0],
            [1, 1, 0],
            [2, u32::MAX, u32::MAX],
            [3, u32::MAX, 0],
        ] {
            cell_passes(table, 0, &words);
        }
    }
}

#[test]
fn number_6_terms_and_expressions() {
    let seventeen = [0; 18];
    cell_refused(6, Table::Terms, 3, &[F]);
    cell_refused(6, Table::Terms, 1, &[]);
    cell_refused(6, Table::Terms, 1, &[F, F]);
    cell_refused(6, Table::Terms, 2, &[]);
    cell_refused(6, Table::Terms, 2, &seventeen);
    cell_passes(Table::Terms, 2, &seventeen[1..]);
    cell_refused(6, Table::Expressions, 5, &[F]);
    cell_refused(6, Table::Expressions, 1, &[]);
    cell_refused(6, Table::Expressions, 1, &[F, F]);
    for kind in 2..=4 {
        cell_refused(6, Table::Expressions, kind, &[]);
        cell_refused(6, Table::Expressions, kind, &seventeen);
        cell_passes(Table::Expressions, kind, &seventeen[1..]);
    }
}

#[test]
fn number_6_facts_and_actions() {
    cell_refused(6, Table::Facts, 2, &[0]);
    cell_refused(6, Table::Facts, 0, &[0]);
    cell_refused(6, Table::Facts, 0, &[0, 0, 0]);
    cell_refused(6, Table::Facts, 1, &[]);
    cell_refused(6, Table::Facts, 1, &[0, 0]);
    cell_refused(6, Table::Actions, 6, &[]);
    for kind in [0, 1] {
        cell_refused(6, Table::Actions, kind, &[0]);
        cell_refused(6, Table::Actions, kind, &[0, 0, 0]);
    }
    for kind in [2, 3] {
        cell_refused(6, Table::Actions, kind, &[]);
        cell_refused(6, Table::Actions, kind, &[2, 2]);
    }
    for kind in [4, 5] {
        cell_refused(6, Table::Actions, kind, &[0]);
        cell_passes(Table::Actions, kind, &[]);
    }
}

#[test]
fn number_6_sets() {
    // A literal, a call without argument, a variable; a call with one passes; out of range is 7.
    cell_refused(6, Table::Actions, 2, &[0]);
    cell_refused(6, Table::Actions, 2, &[1]);
    cell_refused(6, Table::Actions, 2, &[3]);
    cell_passes(Table::Actions, 2, &[2]);
    cell_refused(7, Table::Actions, 2, &[4]);
}

#[test]
fn number_6_other_tables() {
    cell_refused(6, Table::Functions, 0, &[]);
    cell_refused(6, Table::Functions, 0, &[F, 0]);
    cell_refused(6, Table::Functions, 1, &[F]);
    cell_refused(6, Table::Functions, 2, &[F]);
    cell_refused(6, Table::Primitives, 9, &[F]);
    for kind in 0..=8 {
        cell_passes(Table::Primitives, kind, &[F]);
    }
    cell_refused(6, Table::Primitives, 0, &[]);
    cell_refused(6, Table::Primitives, 0, &[F, F]);
    cell_refused(6, Table::Rows, 1, &[0, 0]);
    cell_refused(6, Table::Rows, 0, &[0]);
    cell_refused(6, Table::Rows, 0, &[0; 19]);
    cell_passes(Table::Rows, 0, &[0; 18]);
    cell_refused(6, Table::Normalisers, 1, &[F, 0]);
    cell_refused(6, Table::Normalisers, 0, &[F]);
    cell_refused(6, Table::Normalisers, 0, &[F, 0, 0]);
}

#[test]
fn number_6_rules() {
    let rule = |facts: u32, words: usize| {
        let mut rule = vec![9, facts];
        rule.resize(2 + words, 0);
        rule
    };
    cell_refused(6, Table::Rules, 1, &rule(0, 0));
    cell_refused(6, Table::Rules, 0, &[]);
    cell_refused(6, Table::Rules, 0, &[9]);
    cell_refused(6, Table::Rules, 0, &rule(1, 0));
    cell_refused(6, Table::Rules, 0, &rule(u32::MAX, 3));
    cell_refused(6, Table::Rules, 0, &rule(17, 17));
    cell_passes(Table::Rules, 0, &rule(16, 16));
    cell_passes(Table::Rules, 0, &rule(16, 16 + 64));
    cell_refused(6, Table::Rules, 0, &rule(16, 16 + 65));
    cell_refused(6, Table::Rules, 0, &rule(0, 65));
}

#[test]
fn number_6_proofs() {
    cell_refused(6, Table::Proofs, 8, &[0, 0]);
    for (kind, words) in [(0, 2), (2, 5), (3, 4), (4, 3), (5, 5), (6, 3), (7, 2)] {
        let exact = vec![0; words];
        cell_passes(Table::Proofs, kind, &exact);
        cell_refused(6, Table::Proofs, kind, &exact[1..]);
        cell_refused(6, Table::Proofs, kind, &vec![0; words + 1]);
    }
    let rule = |premises: u32, words: usize| {
        let mut proof = vec![0, 0, F, premises];
        proof.resize(4 + words, 0);
        for (place, word) in proof.iter_mut().enumerate().skip(4 + premises as usize) {
            if (place - premises as usize).is_multiple_of(2) {
                *word = place as u32;
            }
        }
        proof
    };
    cell_refused(6, Table::Proofs, 1, &[]);
    cell_refused(6, Table::Proofs, 1, &[0, 0, F]);
    cell_refused(6, Table::Proofs, 1, &[0, 0, F, 1]);
    cell_refused(6, Table::Proofs, 1, &[0, 0, F, u32::MAX, 0, 0]);
    cell_refused(6, Table::Proofs, 1, &rule(0, 1));
    cell_refused(6, Table::Proofs, 1, &rule(1, 2));
    cell_passes(Table::Proofs, 1, &rule(0, 0));
    cell_passes(Table::Proofs, 1, &rule(3, 3 + 64));
    cell_refused(6, Table::Proofs, 1, &rule(3, 3 + 66));
    cell_passes(Table::Proofs, 1, &rule(4_096, 4_096));
    cell_refused(6, Table::Proofs, 1, &rule(4_097, 4_097));
}

#[test]
fn number_7() {
    cell_refused(7, Table::Terms, 2, &[F, 1]);
    cell_refused(7, Table::Terms, 2, &[F, 0, u32::MAX]);
    for kind in 2..=4 {
        cell_refused(7, Table::Expressions, kind, &[0, 4]);
        cell_passes(Table::Expressions, kind, &[0, 3]);
    }
    cell_refused(7, Table::Expressions, 4, &[2]);
    cell_refused(7, Table::Facts, 0, &[0, 4]);
    cell_refused(7, Table::Facts, 0, &[4, 0]);
    cell_refused(7, Table::Facts, 1, &[4]);
    cell_refused(7, Table::Actions, 0, &[9, 4]);
    cell_refused(7, Table::Actions, 1, &[4, 0]);
    cell_refused(7, Table::Actions, 1, &[0, 4]);
    cell_refused(7, Table::Actions, 3, &[4]);
    cell_refused(7, Table::Functions, 1, &[9, 4]);
    cell_refused(7, Table::Rows, 0, &[2, 0]);
    cell_refused(7, Table::Rows, 0, &[0, 1]);
    cell_refused(7, Table::Rows, 0, &[0, 0, 1]);
    cell_refused(7, Table::Normalisers, 0, &[9, 2]);
    cell_refused(7, Table::Rules, 0, &[9, 1, 1]);
    cell_refused(7, Table::Rules, 0, &[9, 0, 1]);
}

#[test]
fn number_7_proofs() {
    for kind in [0, 7] {
        cell_refused(7, Table::Proofs, kind, &[1, 0]);
        cell_refused(7, Table::Proofs, kind, &[0, 1]);
    }
    cell_refused(7, Table::Proofs, 1, &[0, 0, F, 1, 1]);
    cell_refused(7, Table::Proofs, 1, &[0, 0, F, 0, 9, 1]);
    cell_refused(7, Table::Proofs, 2, &[0, 0, F, 1, 0]);
    cell_refused(7, Table::Proofs, 2, &[0, 0, F, 0, 1]);
    cell_refused(7, Table::Proofs, 3, &[0, 0, 1, 0]);
    cell_refused(7, Table::Proofs, 3, &[0, 0, 0, 1]);
    cell_refused(7, Table::Proofs, 4, &[0, 0, 1]);
    cell_refused(7, Table::Proofs, 5, &[0, 0, 1, 0, 0]);
    cell_refused(7, Table::Proofs, 5, &[0, 0, 0, 0, 1]);
    cell_refused(7, Table::Proofs, 6, &[0, 0, 1]);
    // Names and the index of a congruence are no references.
    cell_passes(Table::Proofs, 1, &[0, 0, u32::MAX, 0, u32::MAX, 0]);
    cell_passes(Table::Proofs, 5, &[0, 0, 0, u32::MAX, 0]);
}

#[test]
fn number_8() {
    cell_refused(8, Table::Rows, 0, &[1, 0, 0]);
    cell_refused(8, Table::Normalisers, 0, &[9, 1]);
}

#[test]
fn number_9() {
    cell_refused(9, Table::Terms, 0, &[2, 1, 0]);
    // The same words, another kind.
    let mut tables = small();
    tables.term_variable(5);
    tables.term_application(5, &[]);
    expect(run_asked(&tables, 0), 0, 3, &[0, 0, 1], &[]);
    tables.term_variable(5);
    expect(run_asked(&tables, 0), 9, 0, &[3], &[]);
    // Rows of equal primitive and arguments, whatever their results.
    cell_refused(9, Table::Rows, 0, &[0, 0]);
    cell_passes(Table::Rows, 0, &[0, 0, 0]);
    cell_refused(9, Table::Normalisers, 0, &[F, 0]);
    cell_passes(Table::Normalisers, 0, &[9, 0]);
    cell_refused(9, Table::Proofs, 1, &[0, 0, F, 0, 9, 0, 8, 0, 9, 0]);
    // Equal functions and primitives are allowed.
    cell_passes(Table::Functions, 0, &[F]);
    cell_passes(Table::Primitives, 1, &[F]);
}

#[test]
fn number_10() {
    let tables = small();
    expect(
        run_in(&tables, &Room { cells: 0, pool: 3 }),
        10,
        0,
        &[],
        &[],
    );
    expect(
        run_in(&tables, &Room { cells: 1, pool: 2 }),
        10,
        0,
        &[],
        &[],
    );
    let accepted = |cells, pool| {
        expect(
            run_in(&tables, &Room { cells, pool }),
            0,
            1,
            &[0, 0, 1],
            &[],
        );
    };
    accepted(1, 3);
    accepted(limits::STORE_CELLS, limits::STORE_POOL);
    let cells = limits::STORE_CELLS + 1;
    expect(run_in(&tables, &Room { cells, pool: 3 }), 10, 0, &[], &[]);
    let pool = limits::STORE_POOL + 1;
    expect(run_in(&tables, &Room { cells: 1, pool }), 10, 0, &[], &[]);
}

/// The number with arrays of the given lengths, for a job of one proof and one term.
fn with_lengths(kinds: usize, ends: usize, scratch: usize, answer: &mut [u32]) -> u32 {
    let (mut kinds, mut ends) = (vec![7; kinds], vec![7; ends]);
    let mut pool = [7; 3];
    let words = small().words();
    let index = limits::index_slots(kinds.len());
    check(
        &words, 0, PLAIN, &mut kinds, &mut ends, &mut pool, index, scratch, answer,
    )
    .expect("few steps")
}

#[test]
fn number_10_arrays_and_scratch() {
    let mut answer = [7; 8];
    assert_eq!(with_lengths(1, 2, 9, &mut answer), 10);
    assert_eq!(with_lengths(2, 1, 9, &mut answer), 10);
    assert_eq!(with_lengths(1, 1, 3, &mut answer), 10);
    assert_eq!(answer, common::answer(10, 0, &[]));
    assert_eq!(with_lengths(1, 1, 4, &mut answer), 0);
    let mut long = [7; 9];
    assert_eq!(with_lengths(1, 1, 4, &mut long), 10);
    assert_eq!(long, [7; 9]);
}

/// A malformed job with a short buffer is refused for the job.
#[test]
fn number_10_comes_last() {
    let mut tables = small();
    tables.term_integer(1);
    expect(
        run_in(&tables, &Room { cells: 0, pool: 0 }),
        9,
        0,
        &[1],
        &[],
    );
}

/// A 6 in the last cell comes before a 7 in the first, an 8 before a 9.
#[test]
fn the_lowest_number_over_all_cells() {
    let mut tables = Tables::default();
    tables.term_application(F, &[0]);
    tables.push(Table::Proofs, 9, &[0, 0]);
    expect(run(&tables), 6, 0, &[1], &[]);

    let mut tables = small();
    tables.term_integer(1);
    tables.primitive(0, F);
    tables.row(0, 0, &[]);
    expect(run(&tables), 8, 0, &[3], &[]);
}
