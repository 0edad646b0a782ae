//! The three misreadings that document 01 shuts out, and what ports get wrong beside them.

mod common;

use common::{expect, run};
use job::Tables;

const F: u32 = 4;
const G: u32 = 5;
const RULE: u32 = 6;
const X: u32 = 7;
const Y: u32 = 8;
const P: u32 = 9;

/// The premise opposite a side condition would be refused, and is never looked at.
#[test]
fn a_premise_opposite_a_side_condition_is_not_checked() {
    let mut tables = Tables::default();
    let one = tables.term_integer(1);
    let container = tables.term_application(F, &[one]);
    let primitive = tables.primitive(3, P);
    tables.row(primitive, container, &[one]);
    let x = tables.variable(X);
    let literal = tables.integer(1);
    let call = tables.primitive_call(primitive, &[literal]);
    let condition = tables.equality(x, call);
    let head = tables.expression_action(x);
    tables.rule(RULE, &[condition], &[head]);
    let wrong = tables.fiat((container, container));
    tables.rule_step((container, container), RULE, &[wrong], &[]);
    expect(run(&tables), 0, 2, &[container, container, 1], &[]);
}

#[test]
fn an_eval_opposite_a_bare_side_condition_is_not_checked() {
    let mut tables = Tables::default();
    let one = tables.term_integer(1);
    let primitive = tables.primitive(2, P);
    let unbound = tables.variable(X);
    let call = tables.primitive_call(primitive, &[unbound]);
    let condition = tables.bare(call);
    let literal = tables.integer(1);
    let head = tables.expression_action(literal);
    tables.rule(RULE, &[condition], &[head]);
    let marker = tables.eval((one, one));
    tables.rule_step((one, one), RULE, &[marker], &[]);
    expect(run(&tables), 0, 1, &[one, one, 1], &[]);
}

/// A premise 1 = 2 serves for the bare fact `2`: its left side is not compared.
#[test]
fn a_bare_fact_compares_the_right_side_alone() {
    let mut tables = Tables::default();
    let one = tables.term_integer(1);
    let two = tables.term_integer(2);
    let literal_one = tables.integer(1);
    let literal_two = tables.integer(2);
    tables.union_action(literal_one, literal_two);
    tables.globals = 1;
    let x = tables.variable(X);
    let fact = tables.bare(x);
    let head = tables.union_action(x, literal_one);
    tables.rule(RULE, &[fact], &[head]);
    let premise = tables.fiat((one, two));
    tables.rule_step((two, one), RULE, &[premise], &[(X, two)]);
    expect(run(&tables), 0, 2, &[two, one, 2], &[]);
}

/// The index is out of bounds and the child proof is refused: the child proof is first.
#[test]
fn the_child_proof_is_checked_before_the_index() {
    let mut tables = Tables::default();
    let one = tables.term_integer(1);
    let f_one = tables.term_application(F, &[one]);
    let literal = tables.integer(1);
    let call = tables.constructor(F, &[literal]);
    tables.expression_action(call);
    tables.globals = 1;
    let base = tables.fiat((f_one, f_one));
    let child = tables.fiat((one, f_one));
    tables.congruence((f_one, f_one), base, 9, child);
    expect(run(&tables), 33, 2, &[child, one, f_one], &[]);
}

/// A later action's refusal comes before a claim that is among the pairs already.
#[test]
fn a_head_runs_to_its_end() {
    let mut tables = Tables::default();
    let one = tables.term_integer(1);
    let literal = tables.integer(1);
    let unbound = tables.variable(X);
    let first = tables.expression_action(literal);
    let second = tables.expression_action(unbound);
    tables.rule(RULE, &[], &[first, second]);
    tables.rule_step((one, one), RULE, &[], &[]);
    expect(run(&tables), 45, 1, &[RULE, X], &[]);
}

/// Per fact: normal form, premise, evaluation; the second fact's normal form is not seen first.
#[test]
fn facts_are_checked_one_after_another() {
    let mut tables = Tables::default();
    let one = tables.term_integer(1);
    let primitive = tables.primitive(1, P);
    let unbound = tables.variable(X);
    let first = tables.bare(unbound);
    let inner = tables.constructor(F, &[]);
    let outer = tables.primitive_call(primitive, &[inner]);
    let second = tables.bare(outer);
    tables.rule(RULE, &[first, second], &[]);
    let premise = tables.fiat((one, one));
    tables.rule_step((one, one), RULE, &[premise, premise], &[]);
    expect(run(&tables), 45, 1, &[RULE, X], &[]);
}

/// `x = c(x)` with x unbound: both sides are evaluated before anything is bound.
#[test]
fn a_side_condition_binds_after_both_sides() {
    let mut tables = Tables::default();
    let one = tables.term_integer(1);
    let primitive = tables.primitive(3, P);
    tables.row(primitive, one, &[one]);
    let x = tables.variable(X);
    let call = tables.primitive_call(primitive, &[x]);
    let condition = tables.equality(x, call);
    tables.rule(RULE, &[condition], &[]);
    let premise = tables.fiat((one, one));
    tables.rule_step((one, one), RULE, &[premise], &[]);
    expect(run(&tables), 45, 1, &[RULE, X], &[]);
}

/// A substitution wins over globals, a head's let over both.
#[test]
fn bindings_in_their_order() {
    let mut tables = Tables::default();
    let one = tables.term_integer(1);
    let two = tables.term_integer(2);
    let three = tables.term_integer(3);
    let literals = [tables.integer(1), tables.integer(2), tables.integer(3)];
    tables.let_action(X, literals[0]);
    tables.globals = 1;
    let x = tables.variable(X);
    let fact = tables.bare(x);
    let call = tables.constructor(F, &[x]);
    let before = tables.expression_action(call);
    let shadow = tables.let_action(X, literals[2]);
    let after = tables.expression_action(call);
    tables.rule(RULE, &[fact], &[before, shadow, after]);
    let premise = tables.fiat((two, two));
    tables.rule_step((one, one), RULE, &[premise], &[(X, two)]);
    let added: [(u32, &[u32]); 2] = [(2, &[F, two]), (2, &[F, three])];
    expect(run(&tables), 31, 5, &[RULE, one, one], &added);
}

/// Variable = custom call is no function fact, and reaches evaluation after its arguments.
#[test]
fn only_call_equals_variable_is_a_function_fact() {
    let mut tables = Tables::default();
    let one = tables.term_integer(1);
    let x = tables.variable(X);
    let literal = tables.integer(5);
    let call = tables.custom(F, &[literal]);
    let reverse = tables.equality(x, call);
    tables.rule(RULE, &[reverse], &[]);
    let premise = tables.fiat((one, one));
    tables.rule_step((one, one), RULE, &[premise], &[(X, one)]);
    expect(run(&tables), 52, 2, &[F], &[(0, &[2, 5, 0])]);
}

/// The variable of a function fact is looked up before the call's arguments.
#[test]
fn a_function_fact_looks_its_variable_up_first() {
    let mut tables = Tables::default();
    let one = tables.term_integer(1);
    let x = tables.variable(X);
    let y = tables.variable(Y);
    let call = tables.custom(F, &[y]);
    let fact = tables.equality(call, x);
    tables.rule(RULE, &[fact], &[]);
    let premise = tables.fiat((one, one));
    tables.rule_step((one, one), RULE, &[premise], &[]);
    expect(run(&tables), 45, 1, &[RULE, X], &[]);
}

/// In the normal form the inside of an argument comes before the next argument.
#[test]
fn the_normal_form_goes_inside_before_it_goes_on() {
    let mut tables = Tables::default();
    let one = tables.term_integer(1);
    let plain = tables.primitive(1, P);
    let container = tables.primitive(3, P + 1);
    let nothing = tables.constructor(G, &[]);
    let offender = tables.primitive_call(plain, &[nothing]);
    let later = tables.primitive_call(container, &[]);
    let call = tables.constructor(F, &[offender, later]);
    let fact = tables.bare(call);
    tables.rule(RULE, &[fact], &[]);
    let premise = tables.fiat((one, one));
    tables.rule_step((one, one), RULE, &[premise], &[]);
    expect(run(&tables), 49, 1, &[RULE, nothing], &[]);
}

/// A container call under a plain primitive call is not barred, and the fact stays ordinary.
#[test]
fn a_container_call_under_a_primitive_call_is_ordinary() {
    let mut tables = Tables::default();
    let one = tables.term_integer(1);
    let two = tables.term_integer(2);
    let plain = tables.primitive(1, P);
    let container = tables.primitive(3, P + 1);
    tables.row(plain, one, &[two]);
    tables.row(container, two, &[]);
    let inner = tables.primitive_call(container, &[]);
    let outer = tables.primitive_call(plain, &[inner]);
    let fact = tables.bare(outer);
    let literal = tables.integer(1);
    let head = tables.expression_action(literal);
    tables.rule(RULE, &[fact], &[head]);
    let premise = tables.eval((one, one));
    tables.rule_step((one, one), RULE, &[premise], &[]);
    expect(run(&tables), 41, 2, &[premise], &[]);
}

/// In a side condition a custom call is an application like any other.
#[test]
fn a_custom_call_in_a_side_condition_is_an_application() {
    let mut tables = Tables::default();
    let one = tables.term_integer(1);
    let f_one = tables.term_application(F, &[one]);
    let container = tables.primitive(3, P);
    tables.row(container, f_one, &[]);
    let literal = tables.integer(1);
    let left = tables.custom(F, &[literal]);
    let right = tables.primitive_call(container, &[]);
    let condition = tables.equality(left, right);
    let head = tables.expression_action(literal);
    tables.rule(RULE, &[condition], &[head]);
    let premise = tables.eval((one, one));
    tables.rule_step((one, one), RULE, &[premise], &[]);
    expect(run(&tables), 0, 2, &[one, one, 1], &[]);
}

/// A primitive's arguments are among the pairs, though no subterm of its value.
#[test]
fn the_arguments_of_a_primitive_are_among_the_pairs() {
    let mut tables = Tables::default();
    let one = tables.term_integer(1);
    let f_one = tables.term_application(F, &[one]);
    let plain = tables.primitive(1, P);
    tables.row(plain, one, &[f_one]);
    let literal = tables.integer(1);
    let argument = tables.constructor(F, &[literal]);
    let call = tables.primitive_call(plain, &[argument]);
    tables.expression_action(call);
    tables.globals = 1;
    tables.fiat((f_one, f_one));
    expect(run(&tables), 0, 2, &[f_one, f_one, 1], &[]);
}
