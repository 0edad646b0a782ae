//! A job and an answer for people.

use std::fmt::Write;

use job::{Cell, Job, Table, primitives};

/// All cells of a job, or why there are none.
pub fn job(words: &[u32]) -> String {
    let Some(job) = Job::read(words) else {
        return format!("no job: {} words, {words:?}\n", words.len());
    };
    let mut text = format!("sizes {:?}\n", job.sizes.0);
    if !job.sizes.within_limits() || !job.ends_formed() {
        text.push_str("a size too large, or ends that fall\n");
        return text;
    }
    for table in Table::ALL {
        for (number, cell) in job.cells(table).enumerate() {
            let global = table == Table::Actions && number < job.sizes.globals() as usize;
            let mark = if global { " global" } else { "" };
            let shown = shown(table, cell);
            writeln!(text, "{}{mark} {number}: {shown}", table_name(table)).expect("a string");
        }
    }
    text
}

fn table_name(table: Table) -> &'static str {
    match table {
        Table::Terms => "term",
        Table::Expressions => "expression",
        Table::Facts => "fact",
        Table::Actions => "action",
        Table::Functions => "function",
        Table::Primitives => "primitive",
        Table::Rows => "row",
        Table::Normalisers => "normaliser",
        Table::Rules => "rule",
        Table::Proofs => "proof",
    }
}

/// The cell's meaning where it has one, its words otherwise.
fn shown(table: Table, cell: Cell) -> String {
    let (kind, words) = (cell.kind, cell.words);
    match (table, kind, words) {
        (Table::Terms | Table::Expressions, 0, [kind, low, high]) => {
            format!("literal {kind} {low} {high}")
        }
        (Table::Terms | Table::Expressions, 1, [name]) => format!("variable {name}"),
        (Table::Terms, 2, [name, rest @ ..]) => format!("application {name} {rest:?}"),
        (Table::Expressions, 2, [name, rest @ ..]) => format!("constructor {name} {rest:?}"),
        (Table::Expressions, 3, [name, rest @ ..]) => format!("custom {name} {rest:?}"),
        (Table::Expressions, 4, [primitive, rest @ ..]) => {
            format!("primitive {primitive} {rest:?}")
        }
        (Table::Facts, 0, [left, right]) => format!("{left} = {right}"),
        (Table::Facts, 1, [expression]) => format!("bare {expression}"),
        (Table::Actions, 0, [name, expression]) => format!("let {name} = {expression}"),
        (Table::Actions, 1, [left, right]) => format!("union {left} {right}"),
        (Table::Actions, 2, [call]) => format!("set {call}"),
        (Table::Actions, 3, [expression]) => format!("expression {expression}"),
        (Table::Actions, 4, []) => "panic".to_string(),
        (Table::Actions, 5, []) => "change".to_string(),
        (Table::Functions, 0, [name]) => format!("{name} without merge"),
        (Table::Functions, 1, [name, merge]) => format!("{name} merge {merge}"),
        (Table::Primitives, 0..=8, [name]) => format!("{name}{}", primitive(kind)),
        (Table::Rows, 0, [primitive, result, rest @ ..]) => {
            format!("primitive {primitive} {rest:?} -> {result}")
        }
        (Table::Normalisers, 0, [head, primitive]) => format!("head {head} by {primitive}"),
        (Table::Rules, 0, [name, count, rest @ ..]) if *count as usize <= rest.len() => {
            let (facts, actions) = rest.split_at(*count as usize);
            format!("{name} facts {facts:?} actions {actions:?}")
        }
        (Table::Proofs, _, [left, right, rest @ ..]) => {
            format!("{left} = {right} by {}", justification(kind, rest))
        }
        _ => format!("kind {kind} words {words:?}"),
    }
}

/// What a primitive of a known kind does.
fn primitive(kind: u32) -> &'static str {
    match kind {
        0 => "",
        1 => " with validator",
        2 => " of containers",
        3 => " with validator of containers",
        primitives::SUM => " sum",
        primitives::DIFFERENCE => " difference",
        primitives::PRODUCT => " product",
        primitives::NEGATION => " negation",
        _ => " quotient",
    }
}

fn justification(kind: u32, words: &[u32]) -> String {
    match (kind, words) {
        (0, []) => "fiat".to_string(),
        (1, [name, count, rest @ ..]) if *count as usize <= rest.len() => {
            let (premises, pairs) = rest.split_at(*count as usize);
            format!("rule {name} premises {premises:?} pairs {pairs:?}")
        }
        (2, [function, old, new]) => format!("merge {function} old {old} new {new}"),
        (3, [left, right]) => format!("transitivity {left} {right}"),
        (4, [proof]) => format!("symmetry {proof}"),
        (5, [base, index, child]) => format!("congruence {base} index {index} child {child}"),
        (6, [proof]) => format!("normalisation {proof}"),
        (7, []) => "eval".to_string(),
        _ => format!("kind {kind} words {words:?}"),
    }
}

/// The eight words as the program prints them.
pub fn answer(words: &[u32]) -> String {
    let words: Vec<String> = words.iter().map(u32::to_string).collect();
    words.join(" ")
}
