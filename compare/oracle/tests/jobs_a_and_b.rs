//! The bench jobs of document 01, whole.

mod common;

use common::{Room, expect, run, run_asked, run_in, run_words};
use job::{Table, Tables};
use oracle::check_bytes;

const F: u32 = 4;

fn job_a() -> Vec<u32> {
    let mut words = vec![1, 0, 0, 0, 0, 0, 0, 0, 0, 0, 2, 8];
    words.extend([0, 0, 4]);
    words.extend([3, 5, 8]);
    words.extend([2, 7, 0, 0, 0, 0, 0, 0]);
    words
}

fn bytes(words: &[u32]) -> Vec<u8> {
    words.iter().flat_map(|word| word.to_le_bytes()).collect()
}

#[test]
fn job_a_is_accepted() {
    let mut answer = [9; 8];
    assert_eq!(check_bytes(&bytes(&job_a()), 1, &mut answer), Ok(0));
    assert_eq!(answer, [0, 1, 0, 0, 2, 0, 0, 0]);
    let room = Room { cells: 1, pool: 3 };
    expect(run_words(&job_a(), 1, &room), 0, 1, &[0, 0, 2], &[]);
}

#[test]
fn job_a_as_tables() {
    let mut tables = Tables::default();
    let seven = tables.term_integer(7);
    let fiat = tables.fiat((seven, seven));
    tables.symmetry((seven, seven), fiat);
    assert_eq!(tables.words(), job_a());
    assert_eq!(Tables::read(&job_a()), Some(tables));
}

#[test]
fn an_answer_of_another_length_is_not_written() {
    let mut answer = [9; 7];
    assert_eq!(check_bytes(&bytes(&job_a()), 1, &mut answer), Ok(10));
    assert_eq!(answer, [9; 7]);
}

/// Terms and globals of job B; term 3 may be left out.
fn job_b_with(term_3: bool) -> Tables {
    let mut tables = Tables::default();
    tables.term_integer(7);
    tables.term_integer(8);
    tables.term_application(F, &[0]);
    if term_3 {
        tables.term_application(F, &[1]);
    }
    let seven = tables.integer(7);
    let eight = tables.integer(8);
    let call = tables.constructor(F, &[seven]);
    tables.union_action(seven, eight);
    tables.expression_action(call);
    tables.globals = 2;
    tables
}

fn job_b() -> Tables {
    job_b_with(true)
}

fn fiat(claimed: (u32, u32)) -> Tables {
    let mut tables = job_b();
    tables.fiat(claimed);
    tables
}

#[test]
fn marked_fiats() {
    expect(run(&fiat((0, 1))), 0, 4, &[0, 1, 1], &[]);
    expect(run(&fiat((0, 0))), 0, 4, &[0, 0, 1], &[]);
    expect(run(&fiat((2, 2))), 0, 4, &[2, 2, 1], &[]);
    expect(run(&fiat((3, 3))), 33, 4, &[0, 3, 3], &[]);
}

#[test]
fn marked_transitivity() {
    let mut tables = job_b();
    let left = tables.fiat((0, 1));
    let right = tables.fiat((1, 0));
    tables.transitivity((0, 0), left, right);
    expect(run(&tables), 0, 4, &[0, 0, 2], &[]);

    let mut tables = job_b();
    let left = tables.fiat((0, 1));
    let right = tables.fiat((0, 1));
    tables.transitivity((0, 1), left, right);
    expect(run(&tables), 21, 4, &[2, 1, 0], &[]);
}

#[test]
fn marked_symmetry() {
    let mut tables = job_b();
    let proof = tables.fiat((0, 1));
    tables.symmetry((0, 1), proof);
    expect(run(&tables), 20, 4, &[1, 0, 1, 1, 0], &[]);
}

/// A congruence on the reflexive proof of term 2.
fn congruence(mut tables: Tables, child: (u32, u32), index: u32, claimed: (u32, u32)) -> Tables {
    let base = tables.fiat((2, 2));
    let child = tables.fiat(child);
    tables.congruence(claimed, base, index, child);
    tables
}

#[test]
fn marked_congruences() {
    let run_congruence = |child, index, claimed| run(&congruence(job_b(), child, index, claimed));
    expect(run_congruence((0, 1), 0, (2, 3)), 0, 4, &[2, 3, 2], &[]);
    expect(run_congruence((0, 1), 1, (2, 3)), 23, 4, &[2, 1, 1], &[]);
    expect(run_congruence((1, 0), 0, (2, 3)), 24, 4, &[2, 1, 0, 0], &[]);
    expect(run_congruence((0, 1), 0, (2, 2)), 25, 4, &[2, 2, 3], &[]);
    expect(run_congruence((0, 1), 0, (3, 3)), 26, 4, &[2], &[]);
}

#[test]
fn unmarked_eval() {
    let mut tables = job_b();
    tables.eval((0, 0));
    expect(run(&tables), 41, 4, &[0], &[]);
}

#[test]
fn unmarked_room() {
    let tables = congruence(job_b_with(false), (0, 1), 0, (2, 2));
    let run_with = |cells, pool| run_in(&tables, &Room { cells, pool });
    expect(run_with(3, 10), 53, 3, &[8], &[]);
    expect(run_with(4, 9), 53, 3, &[8], &[]);
    expect(run_with(3, 9), 53, 3, &[8], &[]);
    expect(run_with(4, 10), 25, 4, &[2, 2, 3], &[(2, &[F, 1])]);
}

#[test]
fn unmarked_arguments() {
    let with_arguments = |count: usize| {
        let mut tables = job_b();
        let arguments = vec![0; count];
        let call = tables.constructor(5, &arguments);
        tables.expression_action(call);
        tables.globals = 3;
        tables.fiat((0, 1));
        run(&tables)
    };
    let mut sixteen = vec![5];
    sixteen.extend([0; 16]);
    expect(with_arguments(16), 0, 5, &[0, 1, 1], &[(2, &sixteen)]);
    expect(with_arguments(17), 6, 0, &[4 + 3], &[]);
}

#[test]
fn the_asked_proof_is_the_one_checked() {
    let mut tables = job_b();
    tables.fiat((0, 1));
    tables.fiat((3, 3));
    expect(run_asked(&tables, 0), 0, 4, &[0, 1, 1], &[]);
    expect(run_asked(&tables, 1), 33, 4, &[1, 3, 3], &[]);
    expect(run_asked(&tables, 2), 3, 0, &[], &[]);
    assert_eq!(tables.count(Table::Proofs), 2);
}
