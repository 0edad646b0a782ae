//! Jobs with many names to be looked up: rules, functions, rows, normalisers.

use generator::extremes::{F, X, Y, united};
use job::Tables;

const NEW: u32 = 1;
const Z: u32 = 8;
const RULE: u32 = 9;
/// The first of many names.
const MANY: u32 = 100;
/// How many steps look names up.
const STEPS: usize = 1_000;
/// How many heads are normalised.
const HEADS: usize = 64;

/// Numbers below the given one, spread over all of them.
fn spread(step: usize, below: usize) -> u32 {
    ((step * 2_654_435_761) % below) as u32
}

/// X = Y gives Y = X, each time by another rule.
pub fn rules(count: u32) -> Tables {
    let mut tables = united();
    let [x, y] = [X, Y].map(|name| tables.variable(name));
    let fact = tables.equality(x, y);
    let head = tables.union_action(y, x);
    for place in 0..count {
        tables.rule(MANY + place, &[fact], &[head]);
    }
    let (mut left, mut right) = (0, 1);
    for step in 0..STEPS {
        let pairs = [(X, left), (Y, right)];
        (left, right) = (right, left);
        let name = MANY + spread(step, count as usize);
        tables.rule_step((left, right), name, &[step as u32], &pairs);
    }
    tables
}

/// Merges of one view with itself, each time by another function.
pub fn functions(count: u32) -> Tables {
    let mut tables = united();
    let view = tables.term_application(F, &[0, 1]);
    let call = tables.custom(F, &[0, 1]);
    tables.set_action(call);
    tables.globals = 2;
    let new = tables.variable(NEW);
    for place in 0..count {
        tables.function(MANY + place, new);
    }
    let first = tables.fiat((view, view));
    let mut proof = first;
    for step in 0..STEPS {
        let name = MANY + spread(step, count as usize);
        proof = tables.merge_step((view, view), name, proof, first);
    }
    tables
}

/// A primitive of three arguments out of sixteen literals; its result is the first.
pub fn rows(count: u32) -> Tables {
    let mut tables = united();
    for value in 3..=16 {
        tables.term_integer(value);
    }
    let digits = |number: u32| [number & 15, number >> 4 & 15, number >> 8];
    let primitive = tables.primitive(1, MANY);
    for number in 0..count {
        let arguments = digits(number);
        tables.row(primitive, arguments[0], &arguments);
    }
    let variables = [X, Y, Z].map(|name| tables.variable(name));
    let fact = tables.bare(variables[0]);
    let call = tables.primitive_call(primitive, &variables);
    let head = tables.union_action(variables[0], call);
    tables.rule(RULE, &[fact], &[head]);
    let mut below = tables.fiat((0, 0));
    for step in 0..STEPS {
        // The first argument stays the same, so that each step is the premise of the next.
        let arguments = digits(spread(step, count as usize) & !15);
        let pairs = [X, Y, Z].map(|name| (name, arguments[(name - X) as usize]));
        below = tables.rule_step((0, 0), RULE, &[below], &pairs);
    }
    tables
}

/// A normaliser for each of many heads; terms with 64 of these heads are normalised one to the next.
pub fn normalisers(count: u32) -> Tables {
    let mut tables = united();
    let primitive = tables.primitive(1, MANY);
    for place in 0..count {
        tables.normaliser(MANY + place, primitive);
    }
    let heads: Vec<u32> = (0..HEADS)
        .map(|place| MANY + spread(place, count as usize))
        .collect();
    let literals: Vec<u32> = (0..HEADS as i64)
        .map(|place| tables.term_integer(3 + place))
        .collect();
    let terms: Vec<u32> = (0..HEADS)
        .map(|place| tables.term_application(heads[place], &[literals[place]]))
        .collect();
    for place in 0..HEADS {
        let next = terms[(place + 1) % HEADS];
        tables.row(primitive, next, &[literals[place]]);
    }
    let literal = tables.integer(3);
    let call = tables.constructor(heads[0], &[literal]);
    tables.expression_action(call);
    tables.globals = 2;
    let mut below = tables.fiat((terms[0], terms[0]));
    for step in 1..=STEPS {
        below = tables.normalisation((terms[0], terms[step % HEADS]), below);
    }
    tables
}
