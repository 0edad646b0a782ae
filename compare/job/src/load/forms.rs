//! 6: unknown kind, literal word or operand count, or a set of no call.

use crate::layout::{Job, Table};
use crate::limits;
use crate::primitives;

/// The cell's own words are not of a form that its kind allows.
pub fn malformed(job: &Job, table: Table, number: usize) -> bool {
    let cell = job.cell(table, number);
    let words = cell.words;
    let formed = match table {
        Table::Terms => term(cell.kind, words),
        Table::Expressions => expression(cell.kind, words),
        Table::Facts => fact(cell.kind, words),
        Table::Actions => action(job, cell.kind, words),
        Table::Functions => function(cell.kind, words),
        Table::Primitives => primitives::known(cell.kind) && words.len() == 1,
        Table::Rows => cell.kind == 0 && operands(words, 2, limits::OPERANDS),
        Table::Normalisers => cell.kind == 0 && words.len() == 2,
        Table::Rules => cell.kind == 0 && rule(words),
        Table::Proofs => proof(cell.kind, words),
    };
    !formed
}

/// Some fixed words, then at most so many operands.
fn operands(words: &[u32], fixed: usize, most: usize) -> bool {
    words.len() >= fixed && words.len() - fixed <= most
}

fn literal(words: &[u32]) -> bool {
    match *words {
        [0, low, high] => low == 0 && high == 0,
        [1, low, high] => low <= 1 && high == 0,
        [2, _, _] => true,
        [3, _, high] => high == 0,
        _ => false,
    }
}

fn term(kind: u32, words: &[u32]) -> bool {
    match kind {
        0 => literal(words),
        1 => words.len() == 1,
        2 => operands(words, 1, limits::OPERANDS),
        _ => false,
    }
}

fn expression(kind: u32, words: &[u32]) -> bool {
    match kind {
        0 => literal(words),
        1 => words.len() == 1,
        2..=4 => operands(words, 1, limits::OPERANDS),
        _ => false,
    }
}

fn fact(kind: u32, words: &[u32]) -> bool {
    match kind {
        0 => words.len() == 2,
        1 => words.len() == 1,
        _ => false,
    }
}

fn action(job: &Job, kind: u32, words: &[u32]) -> bool {
    match kind {
        0 | 1 => words.len() == 2,
        2 => words.len() == 1 && settable(job, words[0]),
        3 => words.len() == 1,
        4 | 5 => words.is_empty(),
        _ => false,
    }
}

/// A set's expression is a call with an argument; out of range is for 7 to judge.
fn settable(job: &Job, expression: u32) -> bool {
    if expression >= job.sizes.count(Table::Expressions) {
        return true;
    }
    let cell = job.cell(Table::Expressions, expression as usize);
    matches!(cell.kind, 2..=4) && cell.words.len() >= 2
}

fn function(kind: u32, words: &[u32]) -> bool {
    match kind {
        0 => words.len() == 1,
        1 => words.len() == 2,
        _ => false,
    }
}

fn rule(words: &[u32]) -> bool {
    let [_, facts, rest @ ..] = words else {
        return false;
    };
    let facts = *facts as usize;
    facts <= limits::FACTS && operands(rest, facts, limits::ACTIONS)
}

fn proof(kind: u32, words: &[u32]) -> bool {
    let [_, _, rest @ ..] = words else {
        return false;
    };
    match kind {
        0 | 7 => rest.is_empty(),
        1 => rule_proof(rest),
        2 | 5 => rest.len() == 3,
        3 => rest.len() == 2,
        4 | 6 => rest.len() == 1,
        _ => false,
    }
}

fn rule_proof(words: &[u32]) -> bool {
    let [_, premises, rest @ ..] = words else {
        return false;
    };
    let premises = *premises as usize;
    premises <= limits::PREMISES
        && operands(rest, premises, 2 * limits::PAIRS)
        && (rest.len() - premises).is_multiple_of(2)
}
