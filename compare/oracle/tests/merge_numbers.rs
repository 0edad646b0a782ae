//! 34 to 39 and 43: a hand-made job for each, its fields and the store it leaves.

mod common;

use common::{Ran, expect, run};
use job::Tables;

const OLD: u32 = 0;
const NEW: u32 = 1;
const F: u32 = 4;
const G: u32 = 5;
const H: u32 = 6;

const ONE: u32 = 0;
const TWO: u32 = 1;
/// F(1, 1), F(1, 2), F(2, 2), G(1, 2), F(), and the merged view F(1, H(1, 2)).
const F_ONE_ONE: u32 = 2;
const F_ONE_TWO: u32 = 3;
const F_TWO_TWO: u32 = 4;
const G_ONE_TWO: u32 = 5;
const F_EMPTY: u32 = 6;
const H_ONE_TWO: u32 = 7;
const MERGED: u32 = 8;
const TERMS: u32 = 9;

const NOTHING: &[(u32, &[u32])] = &[];

/// Without the merge's terms there are seven terms.
fn start(with_merged: bool) -> Tables {
    let mut tables = Tables::default();
    tables.term_integer(1);
    tables.term_integer(2);
    tables.term_application(F, &[ONE, ONE]);
    tables.term_application(F, &[ONE, TWO]);
    tables.term_application(F, &[TWO, TWO]);
    tables.term_application(G, &[ONE, TWO]);
    tables.term_application(F, &[]);
    if with_merged {
        tables.term_application(H, &[ONE, TWO]);
        tables.term_application(F, &[ONE, H_ONE_TWO]);
    }
    add_globals(&mut tables);
    let old = tables.variable(OLD);
    let new = tables.variable(NEW);
    let merge = tables.constructor(H, &[old, new]);
    tables.function(F, merge);
    tables.function_without_merge(G);
    tables
}

fn add_globals(tables: &mut Tables) {
    let one = tables.integer(1);
    let two = tables.integer(2);
    for (name, arguments) in [
        (F, vec![one, one]),
        (F, vec![one, two]),
        (F, vec![two, two]),
        (G, vec![one, two]),
    ] {
        let call = tables.custom(name, &arguments);
        tables.set_action(call);
    }
    let empty = tables.constructor(F, &[]);
    tables.expression_action(empty);
    tables.union_action(one, two);
    tables.globals = 6;
}

fn merge(tables: Tables, old: (u32, u32), new: (u32, u32), function: u32, claimed: u32) -> Ran {
    let mut tables = tables;
    let old = tables.fiat(old);
    let new = tables.fiat(new);
    tables.merge_step((claimed, claimed), function, old, new);
    run(&tables)
}

fn views(old: u32, new: u32) -> Ran {
    merge(start(true), (old, old), (new, new), F, MERGED)
}

#[test]
fn a_merge_is_accepted() {
    let ran = views(F_ONE_ONE, F_ONE_TWO);
    expect(ran, 0, TERMS, &[MERGED, MERGED, 2], NOTHING);
    let old = (F_ONE_ONE, F_ONE_ONE);
    let new = (F_ONE_TWO, F_ONE_TWO);
    for claimed in [H_ONE_TWO, ONE, TWO] {
        let ran = merge(start(true), old, new, F, claimed);
        expect(ran, 0, TERMS, &[claimed, claimed, 2], NOTHING);
    }
}

#[test]
fn number_34() {
    let ran = views(F_ONE_ONE, G_ONE_TWO);
    expect(ran, 34, TERMS, &[2, F, G], NOTHING);
    // Heads before empty views.
    let ran = views(F_EMPTY, G_ONE_TWO);
    expect(ran, 34, TERMS, &[2, F, G], NOTHING);
}

#[test]
fn number_35() {
    expect(views(F_EMPTY, F_ONE_ONE), 35, TERMS, &[2, 0], NOTHING);
    expect(views(F_ONE_ONE, F_EMPTY), 35, TERMS, &[2, 1], NOTHING);
    expect(views(F_EMPTY, F_EMPTY), 35, TERMS, &[2, 0], NOTHING);
}

#[test]
fn number_36() {
    expect(views(F_ONE_ONE, F_TWO_TWO), 36, TERMS, &[2], NOTHING);
    // Another number of inputs.
    let mut tables = start(true);
    let short = tables.term_application(F, &[ONE]);
    let one = tables.integer(1);
    let call = tables.custom(F, &[one]);
    tables.set_action(call);
    tables.globals = 7;
    let old = (F_ONE_ONE, F_ONE_ONE);
    let ran = merge(tables, old, (short, short), F, MERGED);
    expect(ran, 36, TERMS + 1, &[2], NOTHING);
}

#[test]
fn number_37() {
    expect(
        views(ONE, F_ONE_ONE),
        37,
        TERMS,
        &[2, ONE, F_ONE_ONE],
        NOTHING,
    );
    expect(
        views(F_ONE_ONE, TWO),
        37,
        TERMS,
        &[2, F_ONE_ONE, TWO],
        NOTHING,
    );
}

/// The merge's terms and the merged view are added, and kept.
#[test]
fn number_38() {
    let old = (F_ONE_ONE, F_ONE_ONE);
    let new = (F_ONE_TWO, F_ONE_TWO);
    let ran = merge(start(false), old, new, F, F_ONE_ONE);
    let added: [(u32, &[u32]); 2] = [(2, &[H, ONE, TWO]), (2, &[F, ONE, H_ONE_TWO])];
    expect(ran, 38, TERMS, &[2, F_ONE_ONE, F_ONE_ONE], &added);
}

#[test]
fn number_39() {
    let view = (F_ONE_ONE, F_ONE_ONE);
    let ran = merge(start(true), (ONE, TWO), view, F, MERGED);
    expect(ran, 39, TERMS, &[2, 0, ONE, TWO], NOTHING);
    let ran = merge(start(true), view, (TWO, ONE), F, MERGED);
    expect(ran, 39, TERMS, &[2, 1, TWO, ONE], NOTHING);
}

#[test]
fn number_43() {
    let old = (F_ONE_ONE, F_ONE_ONE);
    let new = (F_ONE_TWO, F_ONE_TWO);
    // Without merge, and missing.
    for function in [G, H] {
        let ran = merge(start(true), old, new, function, MERGED);
        expect(ran, 43, TERMS, &[function], NOTHING);
    }
    // The first function of the name counts, even where it has no merge.
    let mut tables = start(true);
    tables.function(G, 0);
    let ran = merge(tables, old, new, G, MERGED);
    expect(ran, 43, TERMS, &[G], NOTHING);
}

/// The function named need not be the views' head.
#[test]
fn the_merge_of_another_function() {
    let mut tables = start(true);
    let old = tables.variable(OLD);
    tables.function(H, old);
    let ran = merge(
        tables,
        (F_ONE_ONE, F_ONE_ONE),
        (F_ONE_TWO, F_ONE_TWO),
        H,
        F_ONE_ONE,
    );
    expect(ran, 0, TERMS, &[F_ONE_ONE, F_ONE_ONE, 2], NOTHING);
}

/// A merge sees `old` and `new` alone: not a global of another name.
#[test]
fn a_merge_sees_no_globals() {
    let mut tables = Tables::default();
    tables.term_integer(1);
    tables.term_application(F, &[ONE]);
    let one = tables.integer(1);
    let call = tables.custom(F, &[one]);
    tables.set_action(call);
    tables.let_action(G, one);
    tables.globals = 2;
    let global = tables.variable(G);
    tables.function(F, global);
    let view = tables.fiat((1, 1));
    tables.merge_step((1, 1), F, view, view);
    expect(run(&tables), 45, 2, &[3, G], NOTHING);
}
