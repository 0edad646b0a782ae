//! Rule steps with as many facts, actions, pairs and arguments as there may be.

use generator::extremes::{F, RULE, united};
use job::Tables;
use job::limits::{FACTS, OPERANDS, PAIRS};

const SET: u32 = 10;
const SUM: u32 = 11;
const BOX: u32 = 12;
/// The first of the names that the substitution binds, and of those that the lets bind.
const BOUND: u32 = 100;
const LET: u32 = 200;
/// A quarter of the actions.
const QUARTER: usize = 16;

/// Eight equalities, four bare calls, four container conditions.
fn facts(tables: &mut Tables, variables: &[u32], boxed: u32) -> Vec<u32> {
    let call = tables.constructor(F, &variables[..OPERANDS]);
    (0..FACTS)
        .map(|place| match place {
            0..8 => tables.equality(variables[2 * place], variables[2 * place + 1]),
            8..12 => tables.bare(call),
            _ => tables.equality(variables[2 * place], boxed),
        })
        .collect()
}

/// Lets, unions, primitives' values and sets, each sixteen times.
fn actions(tables: &mut Tables, variables: &[u32], sum: u32) -> Vec<u32> {
    (0..4 * QUARTER)
        .map(|place| {
            let turn = place % QUARTER;
            let arguments = &variables[turn..turn + OPERANDS];
            match place / QUARTER {
                0 => {
                    let call = tables.constructor(F, arguments);
                    tables.let_action(LET + turn as u32, call)
                }
                1 => tables.union_action(variables[2 * turn], variables[2 * turn + 1]),
                2 => {
                    let even = &variables[2 * (turn / 2)..][..OPERANDS];
                    let value = tables.primitive_call(sum, even);
                    tables.expression_action(value)
                }
                _ => {
                    let call = tables.custom(SET, arguments);
                    tables.set_action(call)
                }
            }
        })
        .collect()
}

/// The rule; the substitution's names.
fn rule(tables: &mut Tables, alternating: &[u32]) -> Vec<u32> {
    let names: Vec<u32> = (0..PAIRS as u32).map(|place| BOUND + place).collect();
    let variables: Vec<u32> = names.iter().map(|&name| tables.variable(name)).collect();
    let sum = tables.primitive(1, SUM);
    let container = tables.primitive(3, BOX);
    tables.row(sum, 1, alternating);
    tables.row(container, 0, alternating);
    let boxed = tables.primitive_call(container, &variables[..OPERANDS]);
    let facts = facts(tables, &variables, boxed);
    let actions = actions(tables, &variables, sum);
    tables.rule(RULE, &facts, &actions);
    names
}

/// 1 = 2 gives 1 = 2, over and over.
pub fn job(length: usize) -> Tables {
    let mut tables = united();
    // The numbers of 1 and 2, as terms and as expressions.
    let alternating: Vec<u32> = (0..OPERANDS as u32).map(|place| place % 2).collect();
    let term = tables.term_application(F, &alternating);
    let call = tables.constructor(F, &alternating);
    tables.expression_action(call);
    tables.globals = 2;
    let names = rule(&mut tables, &alternating);
    let pairs: Vec<(u32, u32)> = (0..)
        .zip(names)
        .map(|(place, name)| (name, place % 2))
        .collect();
    let call_proof = tables.fiat((term, term));
    let mut proof = 0;
    for _ in 0..length {
        let mut premises = [proof; FACTS];
        premises[8..12].fill(call_proof);
        proof = tables.rule_step((0, 1), RULE, &premises, &pairs);
    }
    tables
}
