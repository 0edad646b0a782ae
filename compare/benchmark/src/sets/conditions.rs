//! Bare container conditions, three at each step.

use generator::extremes::{RULE, X, Y, united};
use job::Tables;

const BOX: u32 = 11;

/// X = Y gives Y = X where b(X), b(Y) and b(b(X)) have values, over and over.
pub fn swaps(length: usize) -> Tables {
    let mut tables = united();
    let container = tables.primitive(3, BOX);
    for term in [0, 1] {
        tables.row(container, term, &[term]);
    }
    let [x, y] = [X, Y].map(|name| tables.variable(name));
    let of_x = tables.primitive_call(container, &[x]);
    let of_y = tables.primitive_call(container, &[y]);
    let twice = tables.primitive_call(container, &[of_x]);
    let mut facts = vec![tables.equality(x, y)];
    facts.extend([of_x, of_y, twice].map(|call| tables.bare(call)));
    let head = tables.union_action(y, x);
    tables.rule(RULE, &facts, &[head]);
    let (mut left, mut right) = (0, 1);
    for premise in 0..length as u32 {
        let pairs = [(X, left), (Y, right)];
        (left, right) = (right, left);
        tables.rule_step((left, right), RULE, &[premise; 4], &pairs);
    }
    tables
}
