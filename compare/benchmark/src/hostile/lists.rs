//! Jobs with long tables, and look-ups that go to their end.

use generator::extremes::{F, RULE, X, united};
use job::limits::{CELLS, FACTS, GLOBALS, OPERANDS, PAIRS, POOL, PREMISES, TERMS};
use job::{Table, Tables};

use super::ground::{ONE, climb, climb_by, literal};

const BOX: u32 = 11;
/// The first of many names.
const MANY: u32 = 1_000;

/// As many terms as there may be, in all pool words that there may be, alike but for the last child.
pub fn terms(_: usize) -> Tables {
    let mut tables = united();
    let pool = POOL - tables.words()[11];
    let count = TERMS - tables.count(Table::Terms);
    let children = (pool / count - 1) as usize;
    for last in 1..=count {
        let mut alike = vec![ONE; children];
        alike[children - 1] = last;
        tables.term_application(F, &alike);
    }
    tables
}

/// As many rows as there may be, alike but for the last argument, which the given term never is.
fn rows_alike(tables: &mut Tables, primitive: u32, width: usize) {
    for name in 0..CELLS {
        let mut arguments = vec![ONE; width];
        arguments[width - 1] = tables.term_variable(name);
        tables.row(primitive, ONE, &arguments);
    }
}

/// Rows of 16 arguments.
pub fn rows(_: usize) -> Tables {
    let mut tables = literal();
    let primitive = tables.primitive(1, BOX);
    rows_alike(&mut tables, primitive, OPERANDS);
    tables.fiat((ONE, ONE));
    tables
}

/// As many cells as there may be of each table, and as many terms, alike but for the last child.
pub fn every_table(_: usize) -> Tables {
    let mut tables = literal();
    for number in 0..CELLS {
        tables.bare(ONE);
        tables.panic_action();
        tables.function_without_merge(number);
        let primitive = tables.primitive(1, number);
        tables.row(primitive, ONE, &[]);
        tables.normaliser(number, primitive);
        tables.rule(number, &[], &[]);
        tables.fiat((ONE, ONE));
    }
    for number in 1..CELLS {
        tables.variable(number);
    }
    for last in 0..TERMS - 1 {
        tables.term_application(F, &[ONE, ONE, ONE, last]);
    }
    tables
}

/// As many names as a table may have cells, one after another.
pub fn names() -> Vec<u32> {
    (MANY..MANY + CELLS).collect()
}

/// The last of these names, and all others.
fn last_and_others(names: &[u32]) -> (u32, &[u32]) {
    let (&last, others) = names.split_last().expect("a name");
    (last, others)
}

/// All steps are by the last rule of these names.
pub fn rules(steps: usize, names: &[u32]) -> Tables {
    let (last, others) = last_and_others(names);
    let mut tables = literal();
    let fact = tables.bare(ONE);
    let head = tables.expression_action(ONE);
    for &name in others {
        tables.rule(name, &[fact], &[head]);
    }
    climb_by(&mut tables, last, (ONE, ONE), &[fact], &[head], &[], steps);
    tables
}

/// All merges are by the last function of these names.
pub fn functions(steps: usize, names: &[u32]) -> Tables {
    let (last, _) = last_and_others(names);
    let mut tables = literal();
    let view = tables.term_application(F, &[ONE, ONE]);
    let call = tables.custom(F, &[ONE, ONE]);
    tables.set_action(call);
    tables.globals = 1;
    for &name in names {
        tables.function(name, ONE);
    }
    let first = tables.fiat((view, view));
    let mut proof = first;
    for _ in 0..steps {
        proof = tables.merge_step((view, view), last, proof, first);
    }
    tables
}

/// Normalisations by the last normaliser, of whose primitive no row fits.
pub fn misses(steps: usize, heads: &[u32]) -> Tables {
    let (last, _) = last_and_others(heads);
    let mut tables = literal();
    let children = [ONE; 8];
    let term = tables.term_application(last, &children);
    let call = tables.constructor(last, &children);
    tables.expression_action(call);
    tables.globals = 1;
    let primitive = tables.primitive(1, BOX);
    rows_alike(&mut tables, primitive, children.len());
    for &head in heads {
        tables.normaliser(head, primitive);
    }
    let mut proof = tables.fiat((term, term));
    for _ in 0..steps {
        proof = tables.normalisation((term, term), proof);
    }
    tables
}

/// Fiats of the last global union, joined by transitivity.
pub fn unions(steps: usize) -> Tables {
    let mut tables = literal();
    for value in 0..i64::from(GLOBALS) {
        let other = tables.integer(2 + value);
        tables.union_action(ONE, other);
    }
    tables.globals = GLOBALS;
    let last = tables.term_integer(1 + i64::from(GLOBALS));
    let mut proof = tables.fiat((ONE, ONE));
    for step in 0..steps / 2 {
        let (claimed, end) = match step % 2 {
            0 => ((ONE, last), last),
            _ => ((last, ONE), ONE),
        };
        let fiat = tables.fiat(claimed);
        proof = tables.transitivity((ONE, end), proof, fiat);
    }
    tables
}

/// As many premises as there may be, for a rule with fewer facts.
pub fn premises(_: usize) -> Tables {
    let mut tables = literal();
    let fact = tables.bare(ONE);
    tables.rule(RULE, &[fact; FACTS], &[]);
    tables.fiat((ONE, ONE));
    tables.rule_step((ONE, ONE), RULE, &[0; PREMISES], &[]);
    tables
}

/// Steps with as many premises as there may be, which the asked proof does not refer to: no height need be
/// counted for them.
pub fn unneeded_premises(_: usize) -> Tables {
    let mut tables = literal();
    tables.fiat((ONE, ONE));
    while tables.words()[11] + 2 * (PREMISES as u32) < POOL {
        tables.rule_step((ONE, ONE), RULE, &[0; PREMISES], &[]);
    }
    tables.fiat((ONE, ONE));
    tables
}

/// Steps by the last rule, which the asked proof does not refer to: no rule need be looked up for them.
pub fn unneeded_steps(_: usize) -> Tables {
    let mut tables = rules(CELLS as usize - 2, &names());
    tables.fiat((ONE, ONE));
    tables
}

/// Each step has the one below opposite all its facts, of which every second is a condition.
pub fn shared_premises(steps: usize) -> Tables {
    let mut tables = literal();
    let container = tables.primitive(3, BOX);
    tables.row(container, ONE, &[]);
    let call = tables.primitive_call(container, &[]);
    let ordinary = tables.bare(ONE);
    let conditions = [tables.bare(call), tables.equality(ONE, call)];
    let facts = conditions.map(|condition| [ordinary, condition]).concat();
    let head = tables.expression_action(ONE);
    let all = facts.repeat(FACTS / facts.len());
    climb(&mut tables, (ONE, ONE), &all, &[head], &[], steps);
    tables
}

/// Substitutions of as many pairs as there may be; the last one is looked up.
pub fn pairs(steps: usize) -> Tables {
    let mut tables = literal();
    let last = tables.variable(X + PAIRS as u32 - 1);
    let fact = tables.bare(last);
    let head = tables.expression_action(last);
    let pairs: Vec<(u32, u32)> = (0..PAIRS as u32).map(|place| (X + place, ONE)).collect();
    climb(
        &mut tables,
        (ONE, ONE),
        &[fact; FACTS],
        &[head],
        &pairs,
        steps,
    );
    tables
}
