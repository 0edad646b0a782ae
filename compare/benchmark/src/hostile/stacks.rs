//! The jobs that take most of the stack: steps one under another, the lowest with a deep expression.

use generator::Case;
use generator::extremes::{F, RULE, X, Y, deep_symmetry};
use job::Tables;
use job::limits::CELLS;
use job::modes::STRICT;

use super::ground::{ONE, literal};
use super::{with_bytes_room, with_largest_room};
use crate::last_proof;

const VIEW: u32 = 10;
const BOX: u32 = 11;
const LOWEST: u32 = 12;
const CELLS_MOST: usize = CELLS as usize;

/// A deep job by its name.
pub struct Deep {
    pub name: &'static str,
    pub case: Case,
}

/// Steps by a rule with one bare fact and a small head over the last proof, which claims that 1 is 1.
fn climb_from_one(tables: &mut Tables, steps: usize) {
    let fact = tables.bare(ONE);
    let head = tables.expression_action(ONE);
    climb_from(tables, fact, head, (ONE, ONE), &[], steps);
}

fn climb_from(
    tables: &mut Tables,
    fact: u32,
    head: u32,
    claimed: (u32, u32),
    pairs: &[(u32, u32)],
    steps: usize,
) {
    tables.rule(RULE, &[fact], &[head]);
    for _ in 0..steps {
        let below = last_proof(tables);
        tables.rule_step(claimed, RULE, &[below], pairs);
    }
}

/// The lowest step's head is a union with the tower.
fn head(levels: usize, steps: usize) -> Tables {
    let mut tables = literal();
    let top = tables.tower(F, ONE, levels, 1);
    let head = tables.union_action(ONE, top);
    tables.rule(LOWEST, &[], &[head]);
    tables.rule_step((ONE, ONE), LOWEST, &[], &[]);
    climb_from_one(&mut tables, steps);
    tables
}

/// The lowest step's fact is a function of the tower that equals a variable.
fn function_fact(levels: usize, steps: usize) -> Tables {
    let mut tables = literal();
    let term = tables.term_tower(F, ONE, levels, 1);
    let view = tables.term_application(VIEW, &[term, ONE]);
    let top = tables.tower(F, ONE, levels, 1);
    let set = tables.custom(VIEW, &[top, ONE]);
    tables.set_action(set);
    tables.globals = 1;
    let x = tables.variable(X);
    let call = tables.custom(VIEW, &[top]);
    let fact = tables.equality(call, x);
    let head = tables.expression_action(ONE);
    tables.rule(LOWEST, &[fact], &[head]);
    let premise = tables.fiat((view, view));
    tables.rule_step((ONE, ONE), LOWEST, &[premise], &[(X, ONE)]);
    climb_from_one(&mut tables, steps);
    tables
}

/// The lowest step has a condition with a container's tower on its right, or of it alone.
fn condition(levels: usize, steps: usize, bare: bool) -> Tables {
    let mut tables = literal();
    let primitive = tables.primitive(3, BOX);
    tables.row(primitive, ONE, &[ONE]);
    let top = (0..levels).fold(ONE, |below, _| tables.primitive_call(primitive, &[below]));
    let fact = match bare {
        true => tables.bare(top),
        false => tables.equality(ONE, top),
    };
    let head = tables.expression_action(ONE);
    tables.rule(LOWEST, &[fact], &[head]);
    let premise = tables.fiat((ONE, ONE));
    tables.rule_step((ONE, ONE), LOWEST, &[premise], &[]);
    climb_from_one(&mut tables, steps);
    tables
}

/// The lowest step is a merge that gives the tower.
fn merge(levels: usize, steps: usize) -> Tables {
    let mut tables = literal();
    let term = tables.term_tower(F, ONE, levels, 1);
    let first = tables.term_application(VIEW, &[ONE]);
    let merged = tables.term_application(VIEW, &[term]);
    let top = tables.tower(F, ONE, levels, 1);
    let set = tables.custom(VIEW, &[ONE]);
    tables.set_action(set);
    tables.globals = 1;
    tables.function(VIEW, top);
    let view = tables.fiat((first, first));
    tables.merge_step((merged, merged), VIEW, view, view);
    let y = tables.variable(Y);
    let fact = tables.bare(y);
    let head = tables.expression_action(y);
    let claimed = (merged, merged);
    climb_from(&mut tables, fact, head, claimed, &[(Y, merged)], steps);
    tables
}

/// As deep as a job of words may be.
pub fn by_words() -> Vec<Deep> {
    let all = [
        ("symmetry", deep_symmetry(CELLS_MOST - 1)),
        ("rule steps, no tower", head(1, CELLS_MOST - 1)),
        ("tower, no rule steps", head(CELLS_MOST - 2, 0)),
        (
            "rule steps over a head",
            head(CELLS_MOST - 2, CELLS_MOST - 1),
        ),
        (
            "rule steps over a function fact",
            function_fact(CELLS_MOST - 5, CELLS_MOST - 2),
        ),
        (
            "rule steps over a condition",
            condition(CELLS_MOST - 2, CELLS_MOST - 2, false),
        ),
        (
            "rule steps over a merge",
            merge(CELLS_MOST - 3, CELLS_MOST - 2),
        ),
    ];
    let strict = (
        "rule steps over a bare condition, strict",
        condition(CELLS_MOST - 2, CELLS_MOST - 2, true),
    );
    deep_jobs(all, strict, with_largest_room)
}

/// As deep as a job of 65,536 bytes may be.
pub fn by_bytes() -> Vec<Deep> {
    let all = [
        ("symmetry", deep_symmetry(3_268)),
        ("rule steps, no tower", head(1, 2_333)),
        ("tower, no rule steps", head(4_083, 0)),
        ("rule steps over a head, half each", head(2_000, 1_190)),
        (
            "rule steps over a condition, half each",
            condition(2_000, 1_188, false),
        ),
    ];
    let strict = (
        "rule steps over a bare condition, strict",
        condition(2_000, 1_188, true),
    );
    deep_jobs(all, strict, with_bytes_room)
}

/// Jobs in mode 0, and one in strict mode behind them.
fn deep_jobs<const COUNT: usize>(
    plain: [(&'static str, Tables); COUNT],
    strict: (&'static str, Tables),
    case: fn(&Tables) -> Case,
) -> Vec<Deep> {
    let deep = |(name, tables): (&'static str, Tables)| Deep {
        name,
        case: case(&tables),
    };
    let mut jobs: Vec<Deep> = plain.into_iter().map(deep).collect();
    let Deep { name, case } = deep(strict);
    let case = case.in_mode(STRICT);
    jobs.push(Deep { name, case });
    jobs
}
