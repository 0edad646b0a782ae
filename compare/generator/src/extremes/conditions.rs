//! Bare container conditions at their extremes.

use job::limits;
use job::{Table, Tables};

use super::{RULE, X, Y, united};
use crate::random::Random;

/// The name of a primitive of containers.
const C: u32 = 3;

/// Bare container conditions: many, deep, each on what the one before binds, or as many as there may be.
pub fn deep_conditions(random: &mut Random) -> Tables {
    match random.below(7) {
        0 | 1 => condition_towers(
            random.between(20, 300),
            random.between(1, 16),
            random.between(1, 30),
        ),
        2 | 3 => condition_chain(random.between(1, 8), random.below(2)),
        4 | 5 => wide_conditions(random),
        _ => condition_table(limits::CELLS - random.below(2) as u32),
    }
}

/// A primitive of containers that gives 1 for 1.
fn container(tables: &mut Tables) -> u32 {
    let primitive = tables.primitive(3, C);
    tables.row(primitive, 0, &[0]);
    primitive
}

/// A rule with these conditions, behind the fact 1 where there is room, and with the head 1; steps by it,
/// each opposite all facts of the next.
fn condition_steps(tables: &mut Tables, conditions: &[u32], pairs: &[(u32, u32)], steps: usize) {
    let mut facts = conditions.to_vec();
    if facts.len() < limits::FACTS {
        facts.insert(0, tables.bare(0));
    }
    let head = tables.expression_action(0);
    tables.rule(RULE, &facts, &[head]);
    let mut below = tables.fiat((0, 0));
    for _ in 0..steps {
        below = tables.rule_step((0, 0), RULE, &vec![below; facts.len()], pairs);
    }
}

/// c(c(.. c(X) ..)), the same fact or others, in each step.
pub fn condition_towers(levels: usize, facts: usize, steps: usize) -> Tables {
    let mut tables = united();
    let primitive = container(&mut tables);
    let x = tables.variable(X);
    let tower = (0..levels).fold(x, |below, _| tables.primitive_call(primitive, &[below]));
    let first = tables.bare(tower);
    let facts: Vec<u32> = (0..facts)
        .map(|place| match place % 2 {
            0 => first,
            _ => tables.bare(tower),
        })
        .collect();
    condition_steps(&mut tables, &facts, &[(X, 0)], steps);
    tables
}

/// y(0) = c(1), c(y(0)), y(1) = c(y(0)), c(y(1)), ..; the last of them is on an unbound variable or not.
fn condition_chain(length: usize, unbound: usize) -> Tables {
    let mut tables = united();
    let primitive = container(&mut tables);
    let mut facts = Vec::new();
    let mut below = 0;
    for place in 0..length {
        let call = tables.primitive_call(primitive, &[below]);
        below = tables.variable(Y + place as u32);
        facts.push(tables.equality(below, call));
        let on = match place + unbound == length {
            true => tables.variable(Y + length as u32),
            false => below,
        };
        let condition = tables.primitive_call(primitive, &[on]);
        facts.push(tables.bare(condition));
    }
    condition_steps(&mut tables, &facts, &[], 1);
    tables
}

/// 16 conditions of 16 arguments each, of which one may have no row.
fn wide_conditions(random: &mut Random) -> Tables {
    let mut tables = united();
    let primitive = container(&mut tables);
    let variables = [X, Y].map(|name| tables.variable(name));
    let missing = random.below(4 * limits::FACTS);
    let mut facts = Vec::new();
    for place in 0..limits::FACTS {
        let picks: Vec<usize> = (0..limits::OPERANDS)
            .map(|bit| place >> (bit % 4) & 1)
            .collect();
        let arguments: Vec<u32> = picks.iter().map(|&pick| variables[pick]).collect();
        let terms: Vec<u32> = picks.iter().map(|&pick| pick as u32).collect();
        if place != missing {
            tables.row(primitive, random.below(2) as u32, &terms);
        }
        let call = tables.primitive_call(primitive, &arguments);
        facts.push(tables.bare(call));
    }
    condition_steps(&mut tables, &facts, &[(X, 0), (Y, 1)], random.between(1, 9));
    tables
}

/// As many expressions as there may be, and so many bare conditions, the last 16 in a rule.
fn condition_table(facts: u32) -> Tables {
    let mut tables = united();
    let primitive = container(&mut tables);
    while tables.count(Table::Expressions) < limits::CELLS {
        tables.primitive_call(primitive, &[0]);
    }
    let numbers: Vec<u32> = (0..facts)
        .map(|place| tables.bare(limits::CELLS - 1 - place % 4_000))
        .collect();
    let last = &numbers[numbers.len() - limits::FACTS..];
    condition_steps(&mut tables, last, &[], 1);
    tables
}
