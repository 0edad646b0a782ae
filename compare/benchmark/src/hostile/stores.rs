//! Jobs that work on a large store.

use generator::extremes::{F, RULE, X, Y, united};
use job::Tables;
use job::limits::{ACTIONS, CELLS, OPERANDS, TERMS};

use super::ground::{ONE, Shape, climb_on_one, literal, stacked};

const SMALL: u32 = 10;
/// Calls over X and Y, so that all expressions there may be are used.
const LEVELS: usize = CELLS as usize - 3;
/// Steps that add a term for each call until no more can be added for another step.
pub const FILLING: usize = 12;

/// The last term, which has the one of the last filling step below it.
const WHOLE: u32 = TERMS - 1;

/// A job with as many terms as there may be, and the expressions X and Y.
fn many_terms() -> (Tables, u32, u32) {
    let mut tables = literal();
    for name in 1..WHOLE {
        tables.term_variable(name);
    }
    tables.term_application(SMALL, &[FILLING as u32]);
    let x = tables.variable(X);
    let y = tables.variable(Y);
    (tables, x, y)
}

/// Steps by a rule one under another; step i claims the term that X is bound to.
fn climb_on_terms(tables: &mut Tables, rule: u32, below: u32, terms: &[(u32, u32)]) -> u32 {
    terms.iter().fold(below, |below, &(x, y)| {
        tables.rule_step((x, x), rule, &[below], &[(X, x), (Y, y)])
    })
}

/// Each head adds a term for each call, or finds it: X is another term at each of the filling steps, then always the same.
fn filled_by(steps: usize, filling: usize, width: usize) -> Tables {
    let (mut tables, x, y) = many_terms();
    let top = stacked(x, LEVELS, Shape::last(width), |arguments| {
        tables.constructor(F, arguments)
    });
    let fact = tables.bare(y);
    let head = tables.expression_action(top);
    tables.rule(RULE, &[fact], &[head]);
    let first = tables.fiat((ONE, ONE));
    let x = |step: usize| step.min(filling) as u32;
    let terms: Vec<(u32, u32)> = (1..=steps).map(|step| (x(step), x(step - 1))).collect();
    climb_on_terms(&mut tables, RULE, first, &terms);
    tables
}

/// Each step adds 4,093 small terms; the 13th finds no room.
pub fn filled(steps: usize) -> Tables {
    filled_by(steps, steps, 1)
}

/// The same with terms of 16 children that differ in the last one.
pub fn filled_alike(steps: usize) -> Tables {
    filled_by(steps, steps, OPERANDS)
}

/// The head is a tower of terms that stand last in a full store, all alike.
pub fn found_last(steps: usize) -> Tables {
    filled_by(steps + FILLING, FILLING, OPERANDS)
}

/// Reflexive claims over a full store, by a rule with a small head. The claimed term is below what Y is bound to, so that it is no value of the head.
pub fn marks(steps: usize) -> Tables {
    let mut tables = filled_by(FILLING, FILLING, 1);
    let (x, y) = (1, 2);
    let fact = tables.bare(x);
    let head = tables.expression_action(y);
    tables.rule(SMALL, &[fact], &[head]);
    let last = FILLING as u32;
    climb_on_terms(&mut tables, SMALL, last, &vec![(last, WHOLE); steps]);
    tables
}

/// Reflexive claims by 64 unions of literals, beside as many expressions as there may be.
pub fn marked_values(steps: usize) -> Tables {
    let mut tables = literal();
    for name in 1..CELLS {
        tables.variable(name);
    }
    let head = tables.union_action(ONE, ONE);
    climb_on_one(&mut tables, &[head; ACTIONS], &[], steps);
    tables
}

/// Congruences one under another whose results stand last among terms that are all alike.
pub fn congruences(steps: usize) -> Tables {
    const CHILDREN: usize = 5;
    let mut tables = united();
    let call = |last: u32| {
        let mut children = [0; CHILDREN];
        children[CHILDREN - 1] = last;
        children
    };
    tables.term_variable(X);
    for last in 2..TERMS - 3 {
        tables.term_application(F, &call(last));
    }
    let results = [0, 1].map(|last| tables.term_application(F, &call(last)));
    let expression = tables.constructor(F, &call(0));
    tables.expression_action(expression);
    tables.globals = 2;
    let children = [0, tables.fiat((1, 0))];
    let mut proof = tables.fiat((results[0], results[0]));
    for step in 0..steps - 1 {
        let claimed = (results[0], results[(step + 1) % 2]);
        proof = tables.congruence(claimed, proof, CHILDREN as u32 - 1, children[step % 2]);
    }
    tables
}
