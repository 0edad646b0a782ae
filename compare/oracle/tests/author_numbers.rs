//! 44 to 53: a hand-made job for each, its fields and the store it leaves. 48 cannot be reached.

mod common;

use common::{Room, expect, run, run_in};
use job::Tables;

const F: u32 = 4;
const RULE: u32 = 6;
const X: u32 = 7;
const P: u32 = 9;

const ONE: u32 = 0;

const NOTHING: &[(u32, &[u32])] = &[];

/// The term 1 and expressions 0: 1, 1: X, 2: F(1).
fn start() -> Tables {
    let mut tables = Tables::default();
    tables.term_integer(1);
    let one = tables.integer(1);
    tables.variable(X);
    tables.constructor(F, &[one]);
    tables
}

const LITERAL: u32 = 0;
const VARIABLE: u32 = 1;
const CALL: u32 = 2;

/// A rule with these facts and actions, asked for with a good premise for each fact.
fn rule_step(mut tables: Tables, facts: &[u32], actions: &[u32]) -> Tables {
    tables.rule(RULE, facts, actions);
    let premise = tables.fiat((ONE, ONE));
    let premises = vec![premise; facts.len()];
    tables.rule_step((ONE, ONE), RULE, &premises, &[]);
    tables
}

#[test]
fn number_44() {
    let mut tables = start();
    tables.expression_action(CALL);
    tables.globals = 1;
    tables.rule(RULE, &[], &[]);
    tables.rule(5, &[], &[]);
    tables.rule(RULE, &[], &[]);
    tables.rule(5, &[], &[]);
    tables.fiat((ONE, ONE));
    expect(run(&tables), 44, 1, &[RULE], NOTHING);
}

#[test]
fn number_45_in_globals() {
    let mut tables = start();
    tables.expression_action(CALL);
    tables.expression_action(VARIABLE);
    tables.globals = 2;
    tables.fiat((ONE, ONE));
    expect(run(&tables), 45, 2, &[2, X], &[(2, &[F, ONE])]);
}

#[test]
fn number_45_in_a_fact() {
    let mut tables = start();
    let fact = tables.equality(CALL, VARIABLE);
    let tables = rule_step(tables, &[fact], &[]);
    expect(run(&tables), 45, 2, &[RULE, X], &[(2, &[F, ONE])]);
}

#[test]
fn number_45_in_a_function_fact() {
    let mut tables = start();
    let call = tables.custom(F, &[CALL]);
    let fact = tables.equality(call, VARIABLE);
    let tables = rule_step(tables, &[fact], &[]);
    expect(run(&tables), 45, 1, &[RULE, X], NOTHING);
}

#[test]
fn number_45_in_a_merge() {
    let mut tables = start();
    tables.term_application(F, &[ONE]);
    tables.set_action(CALL);
    tables.globals = 1;
    tables.function(F, VARIABLE);
    let view = tables.fiat((1, 1));
    tables.merge_step((1, 1), F, view, view);
    expect(run(&tables), 45, 2, &[3, X], NOTHING);
}

/// The primitive's name, wherever it is evaluated.
#[test]
fn number_46() {
    let with_call = || {
        let mut tables = start();
        let primitive = tables.primitive(1, P);
        let call = tables.primitive_call(primitive, &[CALL]);
        let plain = tables.primitive_call(primitive, &[LITERAL]);
        (tables, call, plain)
    };
    let (mut tables, call, _) = with_call();
    tables.expression_action(call);
    tables.globals = 1;
    tables.fiat((ONE, ONE));
    expect(run(&tables), 46, 2, &[P], &[(2, &[F, ONE])]);

    let (mut tables, call, _) = with_call();
    let head = tables.expression_action(call);
    let tables = rule_step(tables, &[], &[head]);
    expect(run(&tables), 46, 2, &[P], &[(2, &[F, ONE])]);

    let (mut tables, _, plain) = with_call();
    let fact = tables.bare(plain);
    let tables = rule_step(tables, &[fact], &[]);
    expect(run(&tables), 46, 1, &[P], NOTHING);
}

#[test]
fn number_47() {
    let mut tables = start();
    let primitive = tables.primitive(0, P);
    let three = tables.integer(3);
    let call = tables.primitive_call(primitive, &[three]);
    let fact = tables.bare(call);
    let tables = rule_step(tables, &[fact], &[]);
    expect(run(&tables), 47, 2, &[P], &[(0, &[2, 3, 0])]);
}

#[test]
fn number_49() {
    for custom in [false, true] {
        let mut tables = start();
        let primitive = tables.primitive(1, P);
        let inner = match custom {
            false => CALL,
            true => tables.custom(F, &[]),
        };
        let call = tables.primitive_call(primitive, &[LITERAL, inner]);
        let fact = tables.equality(LITERAL, call);
        let tables = rule_step(tables, &[fact], &[]);
        expect(run(&tables), 49, 1, &[RULE, inner], NOTHING);
    }
}

/// Side conditions are held to the normal form too.
#[test]
fn number_49_in_a_side_condition() {
    let mut tables = start();
    let primitive = tables.primitive(3, P);
    let call = tables.primitive_call(primitive, &[CALL]);
    let condition = tables.bare(call);
    let tables = rule_step(tables, &[condition], &[]);
    expect(run(&tables), 49, 1, &[RULE, CALL], NOTHING);
}

#[test]
fn number_50() {
    for custom in [false, true] {
        let mut tables = start();
        let primitive = tables.primitive(2, P);
        let inner = tables.primitive_call(primitive, &[]);
        let call = match custom {
            false => tables.constructor(F, &[LITERAL, inner]),
            true => tables.custom(F, &[LITERAL, inner]),
        };
        let fact = tables.equality(call, VARIABLE);
        let tables = rule_step(tables, &[fact], &[]);
        expect(run(&tables), 50, 1, &[RULE, inner], NOTHING);
    }
}

/// In globals, a head, a merge and a side condition; after the arguments.
#[test]
fn number_51() {
    let with_call = |kind: u32| {
        let mut tables = start();
        let primitive = tables.primitive(kind, P);
        let three = tables.integer(3);
        let call = tables.primitive_call(primitive, &[three]);
        (tables, call)
    };
    let added: [(u32, &[u32]); 1] = [(0, &[2, 3, 0])];

    let (mut tables, call) = with_call(0);
    tables.expression_action(call);
    tables.globals = 1;
    tables.fiat((ONE, ONE));
    expect(run(&tables), 51, 2, &[P], &added);

    let (mut tables, call) = with_call(0);
    let head = tables.union_action(LITERAL, call);
    let tables = rule_step(tables, &[], &[head]);
    expect(run(&tables), 51, 2, &[P], &added);

    let (mut tables, call) = with_call(2);
    let condition = tables.equality(call, VARIABLE);
    let tables = rule_step(tables, &[condition], &[]);
    expect(run(&tables), 51, 2, &[P], &added);

    let (mut tables, call) = with_call(0);
    let view = tables.term_application(F, &[ONE]);
    tables.set_action(CALL);
    tables.globals = 1;
    tables.function(F, call);
    let proof = tables.fiat((view, view));
    tables.merge_step((view, view), F, proof, proof);
    expect(run(&tables), 51, 3, &[P], &[(0, &[2, 3, 0])]);
}

/// A bare custom call, two custom calls, and one inside a constructor call.
#[test]
fn number_52() {
    let mut tables = start();
    let three = tables.integer(3);
    let call = tables.custom(5, &[three]);
    let fact = tables.bare(call);
    let tables = rule_step(tables, &[fact], &[]);
    expect(run(&tables), 52, 2, &[5], &[(0, &[2, 3, 0])]);

    let mut tables = start();
    let left = tables.custom(5, &[]);
    let right = tables.custom(8, &[]);
    let fact = tables.equality(left, right);
    let tables = rule_step(tables, &[fact], &[]);
    expect(run(&tables), 52, 1, &[5], NOTHING);

    let mut tables = start();
    let inner = tables.custom(3, &[]);
    let outer = tables.constructor(F, &[inner]);
    let fact = tables.equality(LITERAL, outer);
    let tables = rule_step(tables, &[fact], &[]);
    expect(run(&tables), 52, 1, &[3], NOTHING);
}

/// Pool words in use before the new term; the count of terms without it.
#[test]
fn number_53() {
    let mut tables = start();
    let outer = tables.constructor(F, &[CALL, LITERAL]);
    tables.expression_action(outer);
    tables.globals = 1;
    tables.fiat((ONE, ONE));
    let run_with = |cells, pool| run_in(&tables, &Room { cells, pool });
    let inner: (u32, &[u32]) = (2, &[F, ONE]);
    let all: [(u32, &[u32]); 2] = [inner, (2, &[F, 1, ONE])];
    expect(run_with(1, 100), 53, 1, &[3], NOTHING);
    expect(run_with(100, 4), 53, 1, &[3], NOTHING);
    expect(run_with(2, 100), 53, 2, &[5], &[inner]);
    expect(run_with(100, 7), 53, 2, &[5], &[inner]);
    expect(run_with(3, 8), 0, 3, &[ONE, ONE, 1], &all);
}

/// A term that is there already needs no room.
#[test]
fn number_53_is_for_new_terms() {
    let mut tables = start();
    tables.expression_action(LITERAL);
    tables.globals = 1;
    tables.fiat((ONE, ONE));
    let room = Room { cells: 1, pool: 3 };
    expect(run_in(&tables, &room), 0, 1, &[ONE, ONE, 1], NOTHING);
}

/// Whatever holds before, a side condition with an unbound variable on both sides is none:
/// neither side is a container call, so the fact is ordinary.
#[test]
fn number_48_is_not_reached_by_two_variables() {
    let mut tables = start();
    let fact = tables.equality(VARIABLE, VARIABLE);
    let tables = rule_step(tables, &[fact], &[]);
    expect(run(&tables), 45, 1, &[RULE, X], NOTHING);
}
