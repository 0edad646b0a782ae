//! 27 to 32 and 42: a hand-made job for each, its fields and the store it leaves.

mod common;

use common::{expect, run};
use job::Tables;

const F: u32 = 4;
const RULE: u32 = 6;
const X: u32 = 7;
const Y: u32 = 8;
const P: u32 = 9;

const ONE: u32 = 0;
const TWO: u32 = 1;
const F_ONE: u32 = 2;

const NOTHING: &[(u32, &[u32])] = &[];

/// Terms 1, 2 and F(1); globals: 1 = 2 and F(1). Expressions 0, 1, 2 are the same.
fn start() -> Tables {
    let mut tables = Tables::default();
    tables.term_integer(1);
    tables.term_integer(2);
    tables.term_application(F, &[ONE]);
    let one = tables.integer(1);
    let two = tables.integer(2);
    let f_one = tables.constructor(F, &[one]);
    tables.union_action(one, two);
    tables.expression_action(f_one);
    tables.globals = 2;
    tables
}

#[test]
fn a_rule_step_is_accepted() {
    let mut tables = start();
    let x = tables.variable(X);
    let y = tables.variable(Y);
    let fact = tables.equality(x, y);
    let f_x = tables.constructor(F, &[x]);
    let f_y = tables.constructor(F, &[y]);
    let head = tables.union_action(f_x, f_y);
    tables.rule(RULE, &[fact], &[head]);
    let f_two = tables.term_application(F, &[TWO]);
    let premise = tables.fiat((ONE, TWO));
    let pairs = [(X, ONE), (Y, TWO)];
    tables.rule_step((F_ONE, f_two), RULE, &[premise], &pairs);
    expect(run(&tables), 0, 4, &[F_ONE, f_two, 2], NOTHING);
}

#[test]
fn number_27() {
    let mut tables = start();
    let fact = tables.bare(0);
    tables.rule(RULE, &[fact, fact], &[]);
    let premise = tables.fiat((F_ONE, ONE));
    tables.rule_step((ONE, ONE), RULE, &[premise; 3], &[]);
    expect(run(&tables), 27, 3, &[1, RULE, 2, 3], NOTHING);
}

/// The view F(1, 2) is added and kept.
#[test]
fn number_28() {
    let mut tables = start();
    let x = tables.variable(X);
    let call = tables.custom(F, &[0]);
    let fact = tables.equality(call, x);
    tables.rule(RULE, &[fact], &[]);
    let premise = tables.fiat((ONE, TWO));
    tables.rule_step((ONE, ONE), RULE, &[premise], &[(X, TWO)]);
    let view: (u32, &[u32]) = (2, &[F, ONE, TWO]);
    expect(run(&tables), 28, 4, &[RULE, 3, ONE, TWO], &[view]);
}

/// A custom call of 16 arguments gives a view of 17 children.
#[test]
fn number_28_with_seventeen_children() {
    let mut tables = start();
    let x = tables.variable(X);
    let call = tables.custom(F, &[0; 16]);
    let fact = tables.equality(call, x);
    tables.rule(RULE, &[fact], &[]);
    let premise = tables.fiat((ONE, TWO));
    tables.rule_step((ONE, ONE), RULE, &[premise], &[(X, TWO)]);
    let mut view = vec![F];
    view.extend([ONE; 16]);
    view.push(TWO);
    expect(run(&tables), 28, 4, &[RULE, 3, ONE, TWO], &[(2, &view)]);
}

#[test]
fn a_function_fact_is_accepted() {
    let mut tables = start();
    let set = tables.custom(F, &[0, 1]);
    // The third global action: set F(1) to 2.
    tables.set_action(set);
    tables.globals = 3;
    let x = tables.variable(X);
    let call = tables.custom(F, &[0]);
    let fact = tables.equality(call, x);
    let head = tables.union_action(x, 2);
    tables.rule(RULE, &[fact], &[head]);
    let view = tables.term_application(F, &[ONE, TWO]);
    let premise = tables.fiat((view, view));
    tables.rule_step((F_ONE, TWO), RULE, &[premise], &[(X, TWO)]);
    expect(run(&tables), 0, 4, &[F_ONE, TWO, 2], NOTHING);
}

/// Both sides are evaluated, and kept.
#[test]
fn number_29() {
    let mut tables = start();
    let x = tables.variable(X);
    let f_x = tables.constructor(F, &[x]);
    let three = tables.integer(3);
    let fact = tables.equality(f_x, three);
    tables.rule(RULE, &[fact], &[]);
    let premise = tables.fiat((ONE, TWO));
    tables.rule_step((ONE, ONE), RULE, &[premise], &[(X, TWO)]);
    let added: [(u32, &[u32]); 2] = [(2, &[F, TWO]), (0, &[2, 3, 0])];
    expect(run(&tables), 29, 5, &[RULE, fact, 3, 4, ONE, TWO], &added);
}

#[test]
fn number_29_each_side() {
    for (left, right) in [(0, 0), (1, 1)] {
        let mut tables = start();
        let fact = tables.equality(left, right);
        tables.rule(RULE, &[fact], &[]);
        let premise = tables.fiat((ONE, TWO));
        tables.rule_step((ONE, ONE), RULE, &[premise], &[]);
        expect(
            run(&tables),
            29,
            3,
            &[RULE, fact, left, right, ONE, TWO],
            NOTHING,
        );
    }
}

#[test]
fn number_30() {
    let mut tables = start();
    let other = tables.bare(2);
    let fact = tables.bare(0);
    tables.rule(RULE, &[fact], &[]);
    let premise = tables.fiat((ONE, TWO));
    tables.rule_step((ONE, ONE), RULE, &[premise], &[]);
    assert_ne!(other, fact);
    expect(run(&tables), 30, 3, &[RULE, fact, TWO, ONE], NOTHING);
}

/// All of the head is added, and kept.
#[test]
fn number_31() {
    let mut tables = start();
    let f_two = tables.constructor(F, &[1]);
    let three = tables.integer(3);
    let set = tables.custom(F, &[1, three]);
    let union = tables.union_action(0, f_two);
    let set = tables.set_action(set);
    let panic = tables.panic_action();
    let change = tables.change_action();
    tables.rule(RULE, &[], &[panic, union, change, set]);
    tables.rule_step((ONE, F_ONE), RULE, &[], &[]);
    let added: [(u32, &[u32]); 3] = [(2, &[F, TWO]), (0, &[2, 3, 0]), (2, &[F, TWO, 4])];
    expect(run(&tables), 31, 6, &[RULE, ONE, F_ONE], &added);
}

#[test]
fn number_32() {
    let mut tables = start();
    tables.rule(RULE, &[], &[]);
    tables.rule_step((ONE, ONE), RULE + 1, &[], &[]);
    expect(run(&tables), 32, 3, &[RULE + 1], NOTHING);
}

/// Rows of a container primitive: of 1 it is F(1), of 2 it is 2.
fn with_container(tables: &mut Tables) -> (u32, u32) {
    let primitive = tables.primitive(3, P);
    tables.row(primitive, F_ONE, &[ONE]);
    tables.row(primitive, TWO, &[TWO]);
    let of_one = tables.primitive_call(primitive, &[0]);
    let of_two = tables.primitive_call(primitive, &[1]);
    (of_one, of_two)
}

#[test]
fn number_42() {
    let mut tables = start();
    let (of_one, of_two) = with_container(&mut tables);
    let condition = tables.equality(of_one, of_two);
    tables.rule(RULE, &[condition], &[]);
    let premise = tables.eval((ONE, ONE));
    tables.rule_step((ONE, ONE), RULE, &[premise], &[]);
    expect(run(&tables), 42, 3, &[RULE, condition, F_ONE, TWO], NOTHING);
}

/// A bound variable side is compared; what a side condition evaluates is kept.
#[test]
fn number_42_with_a_bound_variable() {
    let mut tables = start();
    let (of_one, _) = with_container(&mut tables);
    let x = tables.variable(X);
    let first = tables.equality(of_one, x);
    let second = tables.equality(x, of_one);
    let three = tables.integer(3);
    let f_three = tables.constructor(F, &[three]);
    let third = tables.equality(f_three, of_one);
    tables.rule(RULE, &[first, second, third], &[]);
    let premise = tables.eval((ONE, ONE));
    tables.rule_step((ONE, ONE), RULE, &[premise; 3], &[]);
    let added: [(u32, &[u32]); 2] = [(0, &[2, 3, 0]), (2, &[F, 3])];
    expect(run(&tables), 42, 5, &[RULE, third, 4, F_ONE], &added);
    assert_eq!(first, 0);
    assert_eq!(second, 1);
}

/// What a side condition binds is seen by later facts and by the head.
#[test]
fn a_side_condition_binds() {
    let mut tables = start();
    let (of_one, _) = with_container(&mut tables);
    let x = tables.variable(X);
    let binds = tables.equality(x, of_one);
    let fact = tables.bare(x);
    let head = tables.union_action(x, 1);
    tables.rule(RULE, &[binds, fact], &[head]);
    let marker = tables.eval((ONE, ONE));
    let premise = tables.fiat((F_ONE, F_ONE));
    tables.rule_step((TWO, F_ONE), RULE, &[marker, premise], &[]);
    expect(run(&tables), 0, 3, &[TWO, F_ONE, 2], NOTHING);
}

/// A side condition's pairs are dropped: its terms are not equal to themselves by the head.
#[test]
fn a_side_condition_gives_no_pairs() {
    let mut tables = start();
    let (of_one, _) = with_container(&mut tables);
    let x = tables.variable(X);
    let binds = tables.equality(x, of_one);
    let head = tables.expression_action(0);
    tables.rule(RULE, &[binds], &[head]);
    let marker = tables.eval((ONE, ONE));
    tables.rule_step((F_ONE, F_ONE), RULE, &[marker], &[]);
    expect(run(&tables), 31, 3, &[RULE, F_ONE, F_ONE], NOTHING);
}
