//! Deep jobs have their answer; jobs whose trees are too large have none.

mod common;

use common::{Room, answer, expect, run, run_in};
use job::Tables;
use job::modes::PLAIN;
use oracle::{TooManySteps, check};

const F: u32 = 4;
const RULE: u32 = 5;
const X: u32 = 6;

fn start() -> Tables {
    let mut tables = Tables::default();
    tables.term_integer(1);
    tables.integer(1);
    tables
}

#[test]
fn as_many_steps_as_a_job_holds_one_under_another() {
    let mut tables = start();
    tables.fiat((0, 0));
    for proof in 0..4_095 {
        tables.symmetry((0, 0), proof);
    }
    expect(run(&tables), 0, 1, &[0, 0, 4_096], &[]);
}

#[test]
fn as_many_rule_steps_as_a_job_holds_one_under_another() {
    let mut tables = start();
    let x = tables.variable(X);
    let fact = tables.bare(x);
    let head = tables.expression_action(x);
    tables.rule(RULE, &[fact], &[head]);
    tables.fiat((0, 0));
    for proof in 0..4_095 {
        tables.rule_step((0, 0), RULE, &[proof], &[(X, 0)]);
    }
    expect(run(&tables), 0, 1, &[0, 0, 4_096], &[]);
}

/// Each transitivity refers twice to the one below: 2^4,095 ways, on which each height is counted once.
#[test]
fn as_many_transitivities_as_double() {
    let mut tables = start();
    let mut proof = tables.fiat((0, 0));
    for _ in 0..4_095 {
        proof = tables.transitivity((0, 0), proof, proof);
    }
    expect(run(&tables), 0, 1, &[0, 0, 4_096], &[]);
}

/// A bare container condition, which passes unevaluated.
fn condition(tables: &mut Tables) -> u32 {
    let container = tables.primitive(3, F);
    let call = tables.primitive_call(container, &[]);
    tables.bare(call)
}

/// As many steps as a job holds by a rule with these facts; each has the one below opposite all of them.
fn steps_by(mut tables: Tables, facts: &[u32]) -> Tables {
    let head = tables.expression_action(0);
    tables.rule(RULE, facts, &[head]);
    let mut proof = tables.fiat((0, 0));
    for _ in 0..4_095 {
        proof = tables.rule_step((0, 0), RULE, &vec![proof; facts.len()], &[]);
    }
    tables
}

/// 16 facts, of which every second is a condition.
#[test]
fn as_many_rule_steps_with_shared_premises() {
    let mut tables = start();
    let facts = [tables.bare(0), condition(&mut tables)].repeat(8);
    let tables = steps_by(tables, &facts);
    expect(run(&tables), 0, 1, &[0, 0, 4_096], &[]);
}

/// Each has height 1, whatever stands below.
#[test]
fn as_many_rule_steps_opposite_conditions() {
    let mut tables = start();
    let condition = condition(&mut tables);
    let tables = steps_by(tables, &[condition]);
    expect(run(&tables), 0, 1, &[0, 0, 1], &[]);
}

/// A global expression 2,000 calls deep adds 2,000 terms.
#[test]
fn a_deep_expression() {
    let mut tables = start();
    let mut expression = 0;
    for _ in 0..2_000 {
        expression = tables.constructor(F, &[expression]);
    }
    tables.expression_action(expression);
    tables.globals = 1;
    tables.fiat((0, 0));
    let room = Room {
        cells: 2_001,
        pool: 4_003,
    };
    let ran = run_in(&tables, &room);
    assert_eq!(ran.answer, answer(0, 2_001, &[0, 0, 1]));
    assert_eq!(ran.added.len(), 2_000);
    let room = Room {
        cells: 2_000,
        pool: 4_003,
    };
    let ran = run_in(&tables, &room);
    assert_eq!(ran.answer, answer(53, 2_000, &[4_001]));
}

/// e(i) = F(e(i-1), e(i-1)): the Rust walks a tree of 2^60 nodes.
#[test]
fn shared_expressions_have_no_answer() {
    let mut tables = start();
    let mut expression = 0;
    for _ in 0..60 {
        expression = tables.constructor(F, &[expression, expression]);
    }
    tables.expression_action(expression);
    tables.globals = 1;
    tables.fiat((0, 0));
    let mut words = [7; 8];
    let result = check(
        &tables.words(),
        0,
        PLAIN,
        &mut [0; 100],
        &mut [0; 100],
        &mut [0; 300],
        256,
        300,
        &mut words,
    );
    assert_eq!(result, Err(TooManySteps));
    assert_eq!(words, [7; 8]);
}

/// Shared terms are walked once for each evaluation.
#[test]
fn shared_terms_have_an_answer() {
    let mut tables = start();
    let x = tables.variable(X);
    let head = tables.expression_action(x);
    tables.rule(RULE, &[], &[head]);
    let mut term = 0;
    for _ in 0..60 {
        term = tables.term_application(F, &[term, term]);
    }
    tables.rule_step((0, 0), RULE, &[], &[(X, term)]);
    expect(run(&tables), 0, 61, &[0, 0, 1], &[]);
}
