//! Steps of one rule inside each other: the same expressions under other bindings, before and
//! after a premise is checked.

use job::primitives::SUM;
use job::{Table, Tables};

use crate::random::Random;
use crate::setting::Setting;

const C: u32 = 4;
const G: u32 = 5;
const RULE: u32 = 6;
const ASSUMING: u32 = 7;
const X: u32 = 20;
const Y: u32 = 21;
const Z: u32 = 22;
const W: u32 = 23;
const S: u32 = 24;

/// What stands opposite a fact.
#[derive(Clone, Copy)]
enum Premise {
    /// The step below, of the same rule.
    Below,
    /// An assumed proof of G(x).
    Call,
    /// An assumed proof of x + 1.
    Next,
    /// Anything: it stands opposite a side condition.
    Unchecked,
}

/// Step i proves t(i) = t(i+1) from the step below; c(t(i)) is t(i+1) by rows, and where it counts,
/// t(i) + 1 is t(i+1).
pub fn nested(random: &mut Random, length: usize, setting: Setting) -> Tables {
    let mut tables = Tables::default();
    let least = match setting.counting {
        true => start_of_counts(random, length as i64 + 1),
        false => 0,
    };
    let terms: Vec<u32> = (0..length as i64 + 2)
        .map(|value| tables.term_integer(least + value))
        .collect();
    let first = [tables.integer(least), tables.integer(least + 1)];
    tables.union_action(first[0], first[1]);
    tables.globals = 1;
    let primitive = tables.primitive(3, C);
    for pair in terms.windows(2) {
        tables.row(primitive, pair[1], &pair[..1]);
    }
    let sum = setting.counting.then(|| tables.primitive(SUM, S));
    let opposite = rule(&mut tables, primitive, sum, setting.conditions, random);
    assuming_rule(&mut tables);
    let mut below = tables.fiat((terms[0], terms[1]));
    for step in 1..=length {
        let premises: Vec<u32> = opposite
            .iter()
            .map(|premise| match premise {
                Premise::Below => below,
                Premise::Call => assumed_call(&mut tables, terms[step]),
                Premise::Next => assumed(&mut tables, terms[step + 1]),
                Premise::Unchecked => random.below(below as usize + 1) as u32,
            })
            .collect();
        let pairs = [(Y, terms[step - 1]), (X, terms[step])];
        let claimed = (terms[step], terms[step + 1]);
        below = tables.rule_step(claimed, RULE, &premises, &pairs);
    }
    if random.once_in(3) {
        spoil(&mut tables, random);
    }
    tables
}

/// Where to begin so that so many more still fit.
fn start_of_counts(random: &mut Random, more: i64) -> i64 {
    let spread = random.below(more as usize) as i64;
    random.pick(&[
        0,
        i64::MIN,
        i64::MAX - more,
        -spread,
        (1 << 31) - spread,
        (1 << 32) - spread,
        -(1 << 32) - spread,
    ])
}

/// y = x, z = c(x) and G(x), some more than once, in any order; the head evaluates c(x) again. With a
/// sum c is of x + 0, there are facts x + 1, and the head evaluates that. With conditions there are bare
/// c(x), and seldom c(z).
fn rule(
    tables: &mut Tables,
    primitive: u32,
    sum: Option<u32>,
    conditions: bool,
    random: &mut Random,
) -> Vec<Premise> {
    let [x, y, z, w] = [X, Y, Z, W].map(|name| tables.variable(name));
    let (container, next) = primitive_calls(tables, x, primitive, sum);
    let call = tables.constructor(G, &[x]);
    let mut facts = vec![(tables.equality(y, x), Premise::Below)];
    for _ in 0..random.between(1, 3) {
        facts.push((tables.equality(z, container), Premise::Unchecked));
    }
    for _ in 0..random.below(3) {
        facts.push((tables.bare(call), Premise::Call));
    }
    if sum.is_some() {
        facts.push((tables.bare(next), Premise::Next));
    }
    if conditions {
        let bare = bare_conditions(tables, container, (primitive, z), random);
        facts.extend(bare.map(|fact| (fact, Premise::Unchecked)));
    }
    for place in (1..facts.len()).rev() {
        facts.swap(place, random.below(place + 1));
    }
    let actions = match random.below(3) {
        0 => vec![tables.union_action(x, next)],
        1 => vec![tables.union_action(x, z), tables.expression_action(call)],
        _ => vec![tables.let_action(W, next), tables.union_action(x, w)],
    };
    let numbers: Vec<u32> = facts.iter().map(|fact| fact.0).collect();
    tables.rule(RULE, &numbers, &actions);
    facts.iter().map(|fact| fact.1).collect()
}

/// Bare conditions c(x), some one fact, and seldom one c(z).
fn bare_conditions(
    tables: &mut Tables,
    container: u32,
    (primitive, z): (u32, u32),
    random: &mut Random,
) -> impl Iterator<Item = u32> {
    let mut facts = vec![tables.bare(container)];
    for _ in 0..random.below(3) {
        facts.push(match random.once_in(2) {
            true => facts[0],
            false => tables.bare(container),
        });
    }
    if random.once_in(4) {
        let call = tables.primitive_call(primitive, &[z]);
        facts.push(tables.bare(call));
    }
    facts.into_iter()
}

/// The container call, and the call with the next term as its value.
fn primitive_calls(tables: &mut Tables, x: u32, primitive: u32, sum: Option<u32>) -> (u32, u32) {
    let Some(sum) = sum else {
        let container = tables.primitive_call(primitive, &[x]);
        return (container, container);
    };
    let [zero, one] = [0, 1].map(|value| tables.integer(value));
    let same = tables.primitive_call(sum, &[x, zero]);
    let container = tables.primitive_call(primitive, &[same]);
    (container, tables.primitive_call(sum, &[x, one]))
}

fn assuming_rule(tables: &mut Tables) {
    let x = tables.variable(X);
    let action = tables.expression_action(x);
    tables.rule(ASSUMING, &[], &[action]);
}

/// A proof of G(t), which enters the job.
fn assumed_call(tables: &mut Tables, term: u32) -> u32 {
    let words = vec![G, term];
    let there = tables
        .of(Table::Terms)
        .iter()
        .position(|cell| cell.kind == 2 && cell.words == words);
    let call = match there {
        Some(number) => number as u32,
        None => tables.term_application(G, &[term]),
    };
    assumed(tables, call)
}

/// A proof of a term's equality to itself.
fn assumed(tables: &mut Tables, term: u32) -> u32 {
    tables.rule_step((term, term), ASSUMING, &[], &[(X, term)])
}

/// One row or one claim is wrong.
fn spoil(tables: &mut Tables, random: &mut Random) {
    let table = random.pick(&[Table::Rows, Table::Proofs]);
    let count = tables.count(table) as usize;
    let number = random.below(count);
    let terms = tables.count(Table::Terms) as usize;
    tables.of_mut(table)[number].words[1] = random.below(terms) as u32;
}
