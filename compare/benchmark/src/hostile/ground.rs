//! What the hostile jobs have in common: a literal, calls one over another, heads that evaluate them again and
//! again, and rule steps one under another.

use std::iter;

use generator::extremes::{RULE, X};
use job::Tables;
use job::limits::ACTIONS;

/// The number of the literal 1, as a term and as an expression.
pub const ONE: u32 = 0;

/// The literal 1 as a term and as an expression.
pub fn literal() -> Tables {
    let mut tables = Tables::default();
    tables.term_integer(1);
    tables.integer(1);
    tables
}

/// The first of names that no expression has.
const UNUSED: u32 = 2_000;

/// A call's arguments: so many, the call below at a place among them, all others 1.
#[derive(Clone, Copy)]
pub struct Shape {
    pub width: usize,
    place: usize,
}

impl Shape {
    pub const fn first(width: usize) -> Shape {
        Shape { width, place: 0 }
    }

    pub const fn last(width: usize) -> Shape {
        Shape {
            width,
            place: width - 1,
        }
    }

    /// With this one below.
    pub fn arguments(self, below: u32) -> Vec<u32> {
        let mut arguments = vec![ONE; self.width];
        arguments[self.place] = below;
        arguments
    }
}

/// Calls of this shape one over another, so many over the bottom; the last.
pub fn stacked(
    bottom: u32,
    levels: usize,
    shape: Shape,
    mut call: impl FnMut(&[u32]) -> u32,
) -> u32 {
    (0..levels).fold(bottom, |below, _| call(&shape.arguments(below)))
}

/// How 64 actions evaluate an expression over X.
#[derive(Clone, Copy)]
pub enum Head {
    /// Each is a union of it with itself.
    Unions,
    /// Each is a let of another name.
    Names,
    /// X is bound to 1, then so many times to the expression, over and over.
    Turns(usize),
}

impl Head {
    /// Its actions.
    pub fn actions(self, tables: &mut Tables, expression: u32) -> Vec<u32> {
        match self {
            Head::Unions => vec![tables.union_action(expression, expression); ACTIONS],
            Head::Names => {
                let names = UNUSED..UNUSED + ACTIONS as u32;
                names
                    .map(|name| tables.let_action(name, expression))
                    .collect()
            }
            Head::Turns(times) => {
                let start = tables.let_action(X, ONE);
                let turns = vec![tables.let_action(X, expression); times];
                let turn = iter::once(start).chain(turns);
                turn.cycle().take(ACTIONS).collect()
            }
        }
    }
}

/// A rule, and steps by it one under another; each has the one below opposite all facts, the lowest a fiat.
pub fn climb(
    tables: &mut Tables,
    claimed: (u32, u32),
    facts: &[u32],
    actions: &[u32],
    pairs: &[(u32, u32)],
    steps: usize,
) {
    climb_by(tables, RULE, claimed, facts, actions, pairs, steps);
}

/// The same by a rule of this name.
pub fn climb_by(
    tables: &mut Tables,
    rule: u32,
    claimed: (u32, u32),
    facts: &[u32],
    actions: &[u32],
    pairs: &[(u32, u32)],
    steps: usize,
) {
    tables.rule(rule, facts, actions);
    let mut below = tables.fiat(claimed);
    for _ in 0..steps {
        below = tables.rule_step(claimed, rule, &vec![below; facts.len()], pairs);
    }
}

/// Steps by a rule with these actions, whose only fact is 1; each claims that 1 is 1.
pub fn climb_on_one(tables: &mut Tables, actions: &[u32], pairs: &[(u32, u32)], steps: usize) {
    let fact = tables.bare(ONE);
    climb(tables, (ONE, ONE), &[fact], actions, pairs, steps);
}

/// Steps by a rule with this condition as so many facts behind the first; the premises opposite are not checked.
pub fn climb_by_conditions(tables: &mut Tables, condition: u32, count: usize, steps: usize) {
    let mut facts = vec![condition; count + 1];
    facts[0] = tables.bare(ONE);
    let head = tables.expression_action(ONE);
    climb(tables, (ONE, ONE), &facts, &[head], &[], steps);
}
