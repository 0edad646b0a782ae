//! Jobs with thousands of terms.

use generator::extremes::{F, RULE, X, Y};
use job::Tables;

/// How many steps look a term up.
const STEPS: usize = 1_000;

/// Integers and F of each; rule steps one under another find F of one of them.
pub fn flat(terms: usize) -> Tables {
    let mut tables = Tables::default();
    let half = terms / 2;
    for value in 0..half as i64 {
        tables.term_integer(value);
    }
    for literal in 0..half as u32 {
        tables.term_application(F, &[literal]);
    }
    let [x, y] = [X, Y].map(|name| tables.variable(name));
    let fact = tables.bare(y);
    let call = tables.constructor(F, &[x]);
    let head = tables.expression_action(call);
    tables.rule(RULE, &[fact], &[head]);
    let mut right = 0;
    let mut below = tables.fiat((right, right));
    for step in 0..STEPS {
        let literal = ((step * 2_654_435_761) % half) as u32;
        let pairs = [(X, literal), (Y, right)];
        right = half as u32 + literal;
        below = tables.rule_step((right, right), RULE, &[below], &pairs);
    }
    tables
}
