//! Deep and wide jobs, and jobs with sizes at and one past their limits.

mod conditions;

use job::limits;
use job::primitives::{COUNTING, DIFFERENCE, NEGATION, SUM};
use job::{Table, Tables};

use crate::random::Random;

pub use conditions::{condition_towers, deep_conditions};

/// The names of an application, a rule and two variables.
pub const F: u32 = 4;
pub const RULE: u32 = 5;
pub const X: u32 = 6;
pub const Y: u32 = 7;

/// Two literals that the globals unite, and the fiat of their pair.
pub fn united() -> Tables {
    let mut tables = Tables::default();
    tables.term_integer(1);
    tables.term_integer(2);
    let one = tables.integer(1);
    let two = tables.integer(2);
    tables.union_action(one, two);
    tables.globals = 1;
    tables.fiat((0, 1));
    tables
}

/// A deep or wide job.
pub fn deep_or_wide(random: &mut Random) -> Tables {
    match random.below(9) {
        0 => deep_symmetry(random.between(100, 4_095)),
        1 => deep_rules(random.between(20, 200)),
        2 => deep_expression(random.between(100, 700)),
        3 => deep_congruence(random.between(50, 500)),
        4 => wide_rule(random),
        5 => wide_view(random),
        6 => deep_swaps(random.between(100, 1_500)),
        7 => shared_terms(random.between(20, 200)),
        _ => shared_proofs(random.between(20, 1_000)),
    }
}

/// (2, 1), (1, 2), over and over.
pub fn deep_symmetry(length: usize) -> Tables {
    let mut tables = united();
    for step in 0..length as u32 {
        let claimed = if step.is_multiple_of(2) {
            (1, 0)
        } else {
            (0, 1)
        };
        tables.symmetry(claimed, step);
    }
    tables
}

/// X = Y gives F(X) = F(Y), over and over.
pub fn deep_rules(length: usize) -> Tables {
    let mut tables = united();
    let x = tables.variable(X);
    let y = tables.variable(Y);
    let fact = tables.equality(x, y);
    let f_x = tables.constructor(F, &[x]);
    let f_y = tables.constructor(F, &[y]);
    let head = tables.union_action(f_x, f_y);
    tables.rule(RULE, &[fact], &[head]);
    let (mut left, mut right) = (0, 1);
    for premise in 0..length as u32 {
        let pairs = [(X, left), (Y, right)];
        left = tables.term_application(F, &[left]);
        right = tables.term_application(F, &[right]);
        tables.rule_step((left, right), RULE, &[premise], &pairs);
    }
    tables
}

/// X = Y gives Y = X, over and over: rule steps one under another, with small terms.
pub fn deep_swaps(length: usize) -> Tables {
    let mut tables = united();
    let x = tables.variable(X);
    let y = tables.variable(Y);
    let fact = tables.equality(x, y);
    let head = tables.union_action(y, x);
    tables.rule(RULE, &[fact], &[head]);
    let (mut left, mut right) = (0, 1);
    for premise in 0..length as u32 {
        let pairs = [(X, left), (Y, right)];
        (left, right) = (right, left);
        tables.rule_step((left, right), RULE, &[premise], &pairs);
    }
    tables
}

/// Calls that compute, many in each other or in steps one under another.
pub fn deep_counts(random: &mut Random) -> Tables {
    match random.once_in(2) {
        true => count_steps(SUM, random.between(20, 400)),
        false => count_tower(random.between(50, 700), random),
    }
}

/// X = Y gives X + 1 = Y + 1, over and over, by a primitive of this kind.
pub fn count_steps(kind: u32, length: usize) -> Tables {
    let mut tables = united();
    let sum = tables.primitive(kind, F);
    let x = tables.variable(X);
    let y = tables.variable(Y);
    let one = tables.integer(1);
    let fact = tables.equality(x, y);
    let x_more = tables.primitive_call(sum, &[x, one]);
    let y_more = tables.primitive_call(sum, &[y, one]);
    let head = tables.union_action(x_more, y_more);
    tables.rule(RULE, &[fact], &[head]);
    let (mut left, mut right) = (0, 1);
    for premise in 0..length as u32 {
        let pairs = [(X, left), (Y, right)];
        left = right;
        right = tables.term_integer(i64::from(premise) + 3);
        tables.rule_step((left, right), RULE, &[premise], &pairs);
    }
    tables
}

/// A global (.. ((1 o 1) o 1) ..) o 1 by one of the five operations, and the fiat of what it gives.
fn count_tower(length: usize, random: &mut Random) -> Tables {
    let mut tables = united();
    let kind = random.pick(&COUNTING);
    let primitive = tables.primitive(kind, F);
    let mut call = 0;
    for _ in 0..length {
        call = match kind {
            NEGATION => tables.primitive_call(primitive, &[call]),
            _ => tables.primitive_call(primitive, &[call, 0]),
        };
    }
    tables.let_action(X, call);
    tables.globals = 2;
    let value = match kind {
        SUM => length as i64 + 1,
        DIFFERENCE => 1 - length as i64,
        NEGATION if length % 2 == 1 => -1,
        _ => 1,
    };
    let claimed = match value {
        1 => 0,
        _ => tables.term_integer(value),
    };
    tables.fiat((claimed, claimed));
    tables
}

/// A global F(F(.. F(1) ..)), and the fiat of one of its parts.
fn deep_expression(length: usize) -> Tables {
    let mut tables = united();
    let expression = tables.tower(F, 0, length, 1);
    tables.expression_action(expression);
    tables.globals = 2;
    let f_one = tables.term_application(F, &[0]);
    tables.fiat((f_one, f_one));
    tables
}

/// F(1) = F(2), then inside F, and so on, each by a congruence.
pub fn deep_congruence(length: usize) -> Tables {
    let mut tables = united();
    let expression = tables.tower(F, 0, length, 1);
    tables.expression_action(expression);
    tables.globals = 2;
    let (mut left, mut right) = (0, 1);
    let mut child = 0;
    for _ in 0..length {
        left = tables.term_application(F, &[left]);
        right = tables.term_application(F, &[right]);
        let base = tables.fiat((left, left));
        child = tables.congruence((left, right), base, 0, child);
    }
    tables
}

/// 16 facts, 64 actions, 32 pairs.
fn wide_rule(random: &mut Random) -> Tables {
    let mut tables = united();
    let names: Vec<u32> = (0..limits::PAIRS as u32).map(|place| 100 + place).collect();
    let variables: Vec<u32> = names.iter().map(|&name| tables.variable(name)).collect();
    let pairs: Vec<(u32, u32)> = names
        .iter()
        .enumerate()
        .map(|(place, &name)| (name, place as u32 % 2))
        .collect();
    let facts: Vec<u32> = (0..limits::FACTS)
        .map(|place| tables.equality(variables[2 * place], variables[2 * place + 1]))
        .collect();
    let call = tables.constructor(F, &variables[..limits::OPERANDS]);
    let mut actions = vec![tables.expression_action(call)];
    for place in 1..limits::ACTIONS {
        let call = tables.constructor(F + place as u32, &variables[16..16 + place % 16]);
        let name = names[random.below(names.len())];
        actions.push(tables.let_action(name, call));
    }
    tables.rule(RULE, &facts, &actions);
    let children: Vec<u32> = (0..16).map(|place| place % 2).collect();
    let term = tables.term_application(F, &children);
    tables.rule_step((term, term), RULE, &[0; limits::FACTS], &pairs);
    tables
}

/// A custom call of 16 arguments and its variable: a view of 17 children.
fn wide_view(random: &mut Random) -> Tables {
    let mut tables = united();
    let x = tables.variable(X);
    let arguments: Vec<u32> = (0..limits::OPERANDS)
        .map(|_| random.below(2) as u32)
        .collect();
    let call = tables.custom(F, &arguments);
    let fact = tables.equality(call, x);
    let head = tables.expression_action(x);
    tables.rule(RULE, &[fact], &[head]);
    tables.rule_step((0, 0), RULE, &[0], &[(X, 0)]);
    tables
}

/// Terms T(i) = F(T(i-1), T(i-1)); the globals name the least of them only.
fn shared_terms(length: usize) -> Tables {
    let mut tables = united();
    let x = tables.variable(X);
    let call = tables.constructor(F, &[x, x]);
    let head = tables.expression_action(call);
    tables.rule(RULE, &[], &[head]);
    let term = tables.term_tower(F, 0, length, 2);
    let terms = tables.count(Table::Terms);
    tables.rule_step((2, 2), RULE, &[], &[(X, term)]);
    tables.rule_step((terms - 1, terms - 1), RULE, &[], &[(X, term)]);
    tables
}

/// Each transitivity refers twice to the one below: checked once each.
pub fn shared_proofs(length: usize) -> Tables {
    let mut tables = united();
    let mut proof = tables.fiat((0, 0));
    for _ in 0..length {
        proof = tables.transitivity((0, 0), proof, proof);
    }
    tables
}

/// The sizes by their places among the twelve.
const SIZES: [usize; 12] = [0, 1, 2, 3, 4, 5, 6, 7, 8, 9, 10, 11];

/// A small job with one size at its limit or one past it.
pub fn at_limit(random: &mut Random) -> Tables {
    let past = random.once_in(2) as u32;
    let mut tables = united();
    match random.pick(&SIZES) {
        4 => {
            let globals = limits::GLOBALS + past;
            while tables.count(Table::Actions) < globals {
                tables.panic_action();
            }
            tables.globals = globals;
        }
        11 => fill_pool(&mut tables, limits::POOL + past),
        place => {
            let table = Table::ALL
                .into_iter()
                .find(|table| table.size_index() == place)
                .expect("a table");
            fill_table(&mut tables, table, table.largest() + past);
        }
    }
    tables
}

fn fill_table(tables: &mut Tables, table: Table, count: u32) {
    if table == Table::Rows {
        tables.primitive(1, 1);
    }
    if table == Table::Normalisers {
        tables.primitive(1, 1);
    }
    while tables.count(table) < count {
        let number = tables.count(table);
        match table {
            Table::Terms => tables.term_variable(number),
            Table::Expressions => tables.variable(number),
            Table::Facts => tables.bare(0),
            Table::Actions => tables.change_action(),
            Table::Functions => tables.function_without_merge(number),
            Table::Primitives => tables.primitive(number % 4, number),
            Table::Rows => {
                let digits = [number & 15, number >> 4 & 15, number >> 8].map(|digit| digit % 16);
                for place in tables.count(Table::Terms)..16 {
                    tables.term_variable(place);
                }
                tables.row(0, 0, &digits)
            }
            Table::Normalisers => tables.normaliser(number, 0),
            Table::Rules => tables.rule(number, &[], &[]),
            Table::Proofs => tables.fiat((0, 0)),
        };
    }
}

/// Proofs with many premises take the pool; rows of any length fill the rest.
fn fill_pool(tables: &mut Tables, words: u32) {
    let used = |tables: &Tables| tables.words()[11];
    let premises = [0; limits::PREMISES];
    let whole = 4 + limits::PREMISES as u32;
    let mut left = words - used(tables);
    while left >= whole + 4 {
        tables.rule_step((0, 0), RULE, &premises, &[]);
        left -= whole;
    }
    tables.rule_step((0, 0), RULE, &premises[..left as usize - 4], &[]);
}
