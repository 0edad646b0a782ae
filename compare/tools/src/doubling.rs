//! Jobs with an expression or a term that doubles at each level: by its paths it is 2^levels large, by its cells it is small.

use generator::Case;
use job::{Table, Tables};

const F: u32 = 4;
const VIEW: u32 = 5;
const X: u32 = 6;
const RULE: u32 = 7;
const PREMISE_RULE: u32 = 8;

/// 1, F(1, 1), F(F(1, 1), F(1, 1)), ..: the last term.
fn term(tables: &mut Tables, levels: usize) -> u32 {
    let one = tables.term_integer(1);
    tables.term_tower(F, one, levels, 2)
}

fn expression(tables: &mut Tables, levels: usize) -> u32 {
    let one = tables.integer(1);
    tables.tower(F, one, levels, 2)
}

fn last_of(tables: &Tables) -> Case {
    let terms = tables.count(Table::Terms) as usize;
    Case::new(
        tables.words(),
        tables.count(Table::Proofs) - 1,
        2 * terms,
        16 * terms,
    )
}

/// A step by a rule without facts, whose head is the expression.
fn yields(tables: &mut Tables, rule: u32, expression: u32, claimed: (u32, u32)) -> u32 {
    let action = tables.expression_action(expression);
    tables.rule(rule, &[], &[action]);
    tables.rule_step(claimed, rule, &[], &[])
}

fn in_head(levels: usize) -> Case {
    let mut tables = Tables::default();
    let top = term(&mut tables, levels);
    let call = expression(&mut tables, levels);
    yields(&mut tables, RULE, call, (top, top));
    last_of(&tables)
}

/// A step by a rule whose only fact is made of the expression, behind a premise that proves the term equal to itself.
fn in_body(levels: usize, fact: fn(&mut Tables, u32) -> u32) -> Case {
    let mut tables = Tables::default();
    let top = term(&mut tables, levels);
    let call = expression(&mut tables, levels);
    let premise = yields(&mut tables, PREMISE_RULE, call, (top, top));
    let fact = fact(&mut tables, call);
    let one = tables.integer(1);
    let action = tables.expression_action(one);
    tables.rule(RULE, &[fact], &[action]);
    tables.rule_step((0, 0), RULE, &[premise], &[]);
    last_of(&tables)
}

fn in_merge(levels: usize) -> Case {
    let mut tables = Tables::default();
    let top = term(&mut tables, levels);
    let two = tables.term_integer(2);
    let old = tables.term_application(VIEW, &[0, 0]);
    let new = tables.term_application(VIEW, &[0, two]);
    let merged = tables.term_application(VIEW, &[0, top]);
    let call = expression(&mut tables, levels);
    tables.function(VIEW, call);
    let (one, other) = (tables.integer(1), tables.integer(2));
    let old_view = tables.custom(VIEW, &[one, one]);
    let new_view = tables.custom(VIEW, &[one, other]);
    let old = yields(&mut tables, RULE, old_view, (old, old));
    let new = yields(&mut tables, PREMISE_RULE, new_view, (new, new));
    tables.merge_step((merged, merged), VIEW, old, new);
    last_of(&tables)
}

/// A variable's value has the claimed term as its lowest subterm, or does not have it.
fn claimed(levels: usize, is_subterm: bool) -> Case {
    let mut tables = Tables::default();
    let top = term(&mut tables, levels);
    let other = tables.term_integer(2);
    let variable = tables.variable(X);
    let action = tables.expression_action(variable);
    tables.rule(RULE, &[], &[action]);
    let claim = if is_subterm { 0 } else { other };
    tables.rule_step((claim, claim), RULE, &[], &[(X, top)]);
    last_of(&tables)
}

/// A head, a fact, a merge, the normal form (both sides of an equality, to the last expression), a claimed subterm, and a claimed term that is none.
pub fn cases(levels: usize) -> Vec<Case> {
    vec![
        in_head(levels),
        in_body(levels, |tables, call| tables.bare(call)),
        in_merge(levels),
        in_body(levels, |tables, call| tables.equality(call, call)),
        claimed(levels, true),
        claimed(levels, false),
    ]
}

/// Their answers, in the same order: all but the last pass.
pub fn answers(levels: u32) -> Vec<[u32; 8]> {
    let terms = levels + 1;
    vec![
        [0, terms, levels, levels, 1, 0, 0, 0],
        [0, terms, 0, 0, 2, 0, 0, 0],
        [0, terms + 4, terms + 3, terms + 3, 2, 0, 0, 0],
        [0, terms, 0, 0, 2, 0, 0, 0],
        [0, terms + 1, 0, 0, 1, 0, 0, 0],
        [31, terms + 1, RULE, terms, terms, 0, 0, 0],
    ]
}

/// The list for the program doubling: before each job stand its length and the asked proof.
pub fn list(levels: usize) -> Vec<u32> {
    let mut words = Vec::new();
    for case in cases(levels) {
        words.extend([case.job.len() as u32, case.asked]);
        words.extend(&case.job);
    }
    words
}
