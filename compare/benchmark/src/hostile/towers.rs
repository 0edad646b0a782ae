//! Rule steps and merges one under another, each evaluating an expression of up to 4,096 levels.

use generator::extremes::{F, RULE, X};
use job::Tables;
use job::limits::{CELLS, FACTS};
use job::primitives::SUM;

use super::ground::{ONE, climb, climb_on_one, literal};

const VIEW: u32 = 10;
/// Calls over the literal, so that all expressions there may be are one tower.
const LEVELS: usize = CELLS as usize - 1;

/// Each head is the tower.
pub fn head(steps: usize, width: usize) -> Tables {
    let mut tables = literal();
    let top = tables.tower(F, ONE, LEVELS, width);
    let head = tables.expression_action(top);
    climb_on_one(&mut tables, &[head], &[], steps);
    tables
}

/// Each head adds 1 as often as it can, to the integers that the steps have in turn.
pub fn sums(steps: usize, integers: u32) -> Tables {
    let mut tables = literal();
    for value in 2..=integers {
        tables.term_integer(i64::from(value));
    }
    let sum = tables.primitive(SUM, F);
    let mut top = tables.variable(X);
    for _ in 1..LEVELS {
        top = tables.primitive_call(sum, &[top, ONE]);
    }
    let head = tables.expression_action(top);
    let fact = tables.bare(ONE);
    tables.rule(RULE, &[fact], &[head]);
    let mut below = tables.fiat((ONE, ONE));
    for step in 0..steps as u32 {
        below = tables.rule_step((ONE, ONE), RULE, &[below], &[(X, step % integers)]);
    }
    tables
}

/// Global unions, each of the tower with itself.
pub fn global_unions(count: usize) -> Tables {
    let mut tables = literal();
    let top = tables.tower(F, ONE, LEVELS, 1);
    for _ in 0..count {
        tables.union_action(top, top);
    }
    tables.globals = count as u32;
    tables.fiat((ONE, ONE));
    tables
}

/// 256 globals that bind X to 1, then twice to a tower over it, over and over.
pub fn global_lets(count: usize) -> Tables {
    let mut tables = literal();
    let x = tables.variable(X);
    let top = tables.tower(F, x, LEVELS - 1, 1);
    for place in 0..count {
        let value = if place % 3 == 0 { ONE } else { top };
        tables.let_action(X, value);
    }
    tables.globals = count as u32;
    tables.fiat((ONE, ONE));
    tables
}

/// Each head, and each of so many facts, is made of the tower.
fn by_facts(steps: usize, count: usize, fact: fn(&mut Tables, u32) -> u32) -> Tables {
    let mut tables = literal();
    let term = tables.term_tower(F, ONE, LEVELS, 1);
    let top = tables.tower(F, ONE, LEVELS, 1);
    let head = tables.expression_action(top);
    tables.globals = 1;
    let facts = vec![fact(&mut tables, top); count];
    climb(&mut tables, (term, term), &facts, &[head], &[], steps);
    tables
}

/// The fact is the tower.
pub fn fact(steps: usize) -> Tables {
    by_facts(steps, 1, |tables, top| tables.bare(top))
}

/// 16 facts, each the equality of the tower with itself.
pub fn equalities(steps: usize) -> Tables {
    by_facts(steps, FACTS, |tables, top| tables.equality(top, top))
}

/// Merges one under another, each giving the tower.
pub fn merge(steps: usize) -> Tables {
    let mut tables = literal();
    let term = tables.term_tower(F, ONE, LEVELS - 1, 1);
    let first = tables.term_application(VIEW, &[ONE, ONE]);
    let merged = tables.term_application(VIEW, &[ONE, term]);
    let top = tables.tower(F, ONE, LEVELS - 1, 1);
    let call = tables.custom(VIEW, &[ONE, ONE]);
    tables.set_action(call);
    tables.globals = 1;
    tables.function(VIEW, top);
    let new = tables.fiat((first, first));
    let mut old = new;
    for _ in 0..steps {
        old = tables.merge_step((merged, merged), VIEW, old, new);
    }
    tables
}
