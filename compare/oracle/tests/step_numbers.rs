//! 20 to 26, 33, 40, 41: a hand-made job for each, its fields and the store it leaves.

mod common;

use common::{expect, run};
use job::Tables;

const F: u32 = 4;
const P: u32 = 5;

const ONE: u32 = 0;
const TWO: u32 = 1;
const F_ONE: u32 = 2;

/// Terms 1, 2 and F(1); globals: 1 = 2, F(1), and F(2) which is no term of the job.
fn start() -> Tables {
    let mut tables = Tables::default();
    tables.term_integer(1);
    tables.term_integer(2);
    tables.term_application(F, &[ONE]);
    let one = tables.integer(1);
    let two = tables.integer(2);
    let f_one = tables.constructor(F, &[one]);
    tables.union_action(one, two);
    tables.expression_action(f_one);
    tables.globals = 2;
    tables
}

/// The globals' terms are all in the job, so a refusal adds what the step itself added.
const NOTHING: &[(u32, &[u32])] = &[];

#[test]
fn number_20_symmetry() {
    let mut tables = start();
    let proof = tables.fiat((ONE, TWO));
    tables.symmetry((TWO, TWO), proof);
    expect(run(&tables), 20, 3, &[1, TWO, TWO, TWO, ONE], NOTHING);
}

#[test]
fn number_20_transitivity() {
    let mut tables = start();
    let left = tables.fiat((ONE, TWO));
    let right = tables.fiat((TWO, ONE));
    tables.transitivity((ONE, TWO), left, right);
    expect(run(&tables), 20, 3, &[2, ONE, TWO, ONE, ONE], NOTHING);
    let mut tables = start();
    let left = tables.fiat((ONE, TWO));
    let right = tables.fiat((TWO, ONE));
    tables.transitivity((F_ONE, ONE), left, right);
    expect(run(&tables), 20, 3, &[2, F_ONE, ONE, ONE, ONE], NOTHING);
}

#[test]
fn number_21() {
    let mut tables = start();
    let left = tables.fiat((ONE, TWO));
    let right = tables.fiat((F_ONE, F_ONE));
    tables.transitivity((ONE, F_ONE), left, right);
    expect(run(&tables), 21, 3, &[2, TWO, F_ONE], NOTHING);
}

fn congruence(base: (u32, u32), index: u32, child: (u32, u32), claimed: (u32, u32)) -> Tables {
    let mut tables = start();
    let base = tables.fiat(base);
    let child = tables.fiat(child);
    tables.congruence(claimed, base, index, child);
    tables
}

#[test]
fn number_22() {
    let tables = congruence((ONE, TWO), 7, (F_ONE, F_ONE), (ONE, ONE));
    expect(run(&tables), 22, 3, &[2], NOTHING);
}

#[test]
fn number_23() {
    let tables = congruence((F_ONE, F_ONE), u32::MAX, (F_ONE, F_ONE), (ONE, ONE));
    expect(run(&tables), 23, 3, &[2, u32::MAX, 1], NOTHING);
}

#[test]
fn number_24() {
    let tables = congruence((F_ONE, F_ONE), 0, (F_ONE, F_ONE), (ONE, ONE));
    expect(run(&tables), 24, 3, &[2, F_ONE, ONE, 0], NOTHING);
}

/// The replaced term F(2) is kept.
#[test]
fn number_25() {
    let tables = congruence((F_ONE, F_ONE), 0, (ONE, TWO), (ONE, ONE));
    expect(run(&tables), 25, 4, &[2, ONE, 3], &[(2, &[F, TWO])]);
}

#[test]
fn number_26() {
    let tables = congruence((F_ONE, F_ONE), 0, (ONE, ONE), (ONE, F_ONE));
    expect(run(&tables), 26, 3, &[2], NOTHING);
}

#[test]
fn number_33() {
    let mut tables = start();
    tables.fiat((ONE, F_ONE));
    expect(run(&tables), 33, 3, &[0, ONE, F_ONE], NOTHING);
    // A variable is no literal, and is not equal to itself by fiat.
    let mut tables = start();
    let variable = tables.term_variable(9);
    tables.fiat((variable, variable));
    expect(run(&tables), 33, 4, &[0, variable, variable], NOTHING);
}

/// What the globals add is kept.
#[test]
fn number_33_after_globals() {
    let mut tables = start();
    let three = tables.integer(3);
    let call = tables.custom(F, &[three]);
    tables.set_action(call);
    tables.globals = 3;
    tables.fiat((TWO, F_ONE));
    let added: [(u32, &[u32]); 2] = [(0, &[2, 3, 0]), (2, &[F, 3])];
    expect(run(&tables), 33, 5, &[0, TWO, F_ONE], &added);
}

/// A normaliser for F by a primitive with the row F(1) -> 2.
fn with_normaliser() -> Tables {
    let mut tables = start();
    let primitive = tables.primitive(1, P);
    tables.row(primitive, TWO, &[ONE]);
    tables.normaliser(F, primitive);
    tables
}

fn normalised(mut tables: Tables, claimed: (u32, u32)) -> Tables {
    let proof = tables.fiat((F_ONE, F_ONE));
    tables.normalisation(claimed, proof);
    tables
}

#[test]
fn number_40() {
    let accepted = normalised(with_normaliser(), (F_ONE, TWO));
    expect(run(&accepted), 0, 3, &[F_ONE, TWO, 2], NOTHING);
    let right = normalised(with_normaliser(), (F_ONE, ONE));
    expect(run(&right), 40, 3, &[1, F_ONE, TWO, ONE, 1], NOTHING);
    let left = normalised(with_normaliser(), (ONE, TWO));
    expect(run(&left), 40, 3, &[1, F_ONE, TWO, TWO, 0], NOTHING);
    let both = normalised(with_normaliser(), (ONE, ONE));
    expect(run(&both), 40, 3, &[1, F_ONE, TWO, ONE, 0], NOTHING);
}

#[test]
fn number_40_without_normaliser_or_value() {
    expect(
        run(&normalised(start(), (F_ONE, F_ONE))),
        0,
        3,
        &[F_ONE, F_ONE, 2],
        NOTHING,
    );
    let without = normalised(start(), (F_ONE, TWO));
    expect(run(&without), 40, 3, &[1, F_ONE, F_ONE, TWO, 1], NOTHING);
    let mut no_value = start();
    let primitive = no_value.primitive(1, P);
    no_value.normaliser(F, primitive);
    let no_value = normalised(no_value, (F_ONE, TWO));
    expect(run(&no_value), 40, 3, &[1, F_ONE, F_ONE, TWO, 1], NOTHING);
}

#[test]
fn number_41() {
    let mut tables = start();
    let marker = tables.eval((ONE, ONE));
    tables.symmetry((ONE, ONE), marker);
    expect(run(&tables), 41, 3, &[marker], NOTHING);
}

/// The height goes the longest way; `strict_jobs/heights.rs` has more.
#[test]
fn height() {
    let mut tables = start();
    let first = tables.fiat((ONE, TWO));
    let second = tables.symmetry((TWO, ONE), first);
    let third = tables.symmetry((ONE, TWO), second);
    tables.transitivity((TWO, TWO), second, third);
    expect(run(&tables), 0, 3, &[TWO, TWO, 4], NOTHING);
}
