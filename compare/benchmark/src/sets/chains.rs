//! Steps one under another over two literals.

use generator::extremes::{F, united};
use job::Tables;

/// (1, 2), (1, 1), (1, 2), .., each from the one below.
pub fn transitivity(length: usize) -> Tables {
    let mut tables = united();
    let there = 0;
    let back = tables.fiat((1, 0));
    let mut proof = there;
    for step in 0..length {
        let (right, next) = [(0, back), (1, there)][step % 2];
        proof = tables.transitivity((0, right), proof, next);
    }
    tables
}

/// F(1) = F(2), F(1) = F(1), F(1) = F(2), .., each from the one below.
pub fn congruence(length: usize) -> Tables {
    let mut tables = united();
    let calls = [0, 1].map(|child| tables.term_application(F, &[child]));
    let one = 0;
    let call = tables.constructor(F, &[one]);
    tables.expression_action(call);
    tables.globals = 2;
    let children = [0, tables.fiat((1, 0))];
    let mut proof = tables.fiat((calls[0], calls[0]));
    for step in 0..length - 1 {
        let claimed = (calls[0], calls[(step + 1) % 2]);
        proof = tables.congruence(claimed, proof, 0, children[step % 2]);
    }
    tables
}
