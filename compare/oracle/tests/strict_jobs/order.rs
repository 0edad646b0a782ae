//! When a bare container condition is evaluated, what is never checked, and what strict mode leaves alone.

use job::Tables;
use job::limits::{CELLS, FACTS};

use super::*;

/// The premise opposite a condition would be refused, and is never looked at.
pub fn unchecked_premises() -> Vec<HandMade> {
    let opposite = |premise: fn(&mut Tables) -> u32, value: u32| {
        let mut tables = start();
        let fact = condition(&mut tables, CONTAINER_C, &[VARIABLE_X]);
        let head = tables.expression_action(ONE);
        tables.rule(RULE, &[fact], &[head]);
        let premise = premise(&mut tables);
        tables.rule_step((ONE, ONE), RULE, &[premise], &[(X, value)]);
        tables
    };
    let refused: [fn(&mut Tables) -> u32; 3] = [
        |tables| tables.eval((ONE, ONE)),
        |tables| tables.fiat((ONE, TWO)),
        |tables| tables.rule_step((ONE, ONE), OTHER_RULE, &[], &[]),
    ];
    let mut made = Vec::new();
    for premise in refused {
        made.push(HandMade::new("a row", opposite(premise, ONE)));
        let no_row = HandMade::new("no row", opposite(premise, TWO));
        made.push(no_row.strict(46, &[C], &[]));
    }
    made
}

/// Two facts, each opposite a premise of its own: 1 by a fiat, or an eval.
fn two_facts(make: impl Fn(&mut Tables) -> [u32; 2], eval_at: Option<usize>) -> Tables {
    let mut tables = start();
    let facts = make(&mut tables);
    let head = tables.expression_action(ONE);
    tables.rule(RULE, &facts, &[head]);
    let mut premises = [tables.fiat((ONE, ONE)); 2];
    if let Some(place) = eval_at {
        premises[place] = tables.eval((ONE, ONE));
    }
    tables.rule_step((ONE, ONE), RULE, &premises, &[(X, ONE)]);
    tables
}

/// c(y), and c(3, y, F()), which is not in normal form; its last argument.
fn unbound(tables: &mut Tables) -> u32 {
    condition(tables, CONTAINER_C, &[VARIABLE_Y])
}

fn not_normal(tables: &mut Tables) -> (u32, u32) {
    let inner = tables.constructor(F, &[]);
    let fact = condition(tables, CONTAINER_C, &[THREE, VARIABLE_Y, inner]);
    (fact, inner)
}

/// A later fact's refusal comes after a condition's, an earlier one's before it.
pub fn order() -> Vec<HandMade> {
    let eval = 1;
    let two = |name, make: fn(&mut Tables) -> [u32; 2], eval_at| {
        HandMade::new(name, two_facts(make, eval_at))
    };
    vec![
        two(
            "before a later premise",
            |tables| [unbound(tables), tables.bare(ONE)],
            Some(1),
        )
        .plain(41, &[eval], &[])
        .strict(45, &[RULE, Y], &[]),
        two(
            "after an earlier premise",
            |tables| [tables.bare(ONE), unbound(tables)],
            Some(0),
        )
        .both(41, &[eval], &[]),
        two(
            "after an earlier fact",
            |tables| [tables.bare(TWO), unbound(tables)],
            None,
        )
        .both(30, &[RULE, 0, ONE, TWO], &[]),
        two(
            "the first of two",
            |tables| {
                let no_row = condition(tables, CONTAINER_D, &[THREE]);
                [no_row, unbound(tables)]
            },
            None,
        )
        .strict(46, &[D], &[ADDED_THREE]),
        before_head(),
    ]
}

/// A condition comes after its own normal form, and before a later fact's.
pub fn normal_forms() -> Vec<HandMade> {
    let inner = not_normal(&mut start()).1;
    let later = two_facts(|tables| [unbound(tables), not_normal(tables).0], None);
    vec![
        one_fact("its own", |tables| not_normal(tables).0).both(49, &[RULE, inner], &[]),
        HandMade::new("a later fact's", later)
            .plain(49, &[RULE, inner + 1], &[])
            .strict(45, &[RULE, Y], &[]),
    ]
}

/// The head has an unbound variable of its own.
fn before_head() -> HandMade {
    let mut tables = start();
    let fact = condition(&mut tables, CONTAINER_C, &[VARIABLE_Y]);
    let z = tables.variable(Z);
    let head = tables.expression_action(z);
    tables.rule(RULE, &[fact], &[head]);
    let premise = tables.fiat((ONE, ONE));
    tables.rule_step((ONE, ONE), RULE, &[premise], &[]);
    HandMade::new("before the head", tables)
        .plain(45, &[RULE, Z], &[])
        .strict(45, &[RULE, Y], &[])
}

/// Bare facts of other primitives are ordinary, and equalities are as they were.
pub fn left_alone() -> Vec<HandMade> {
    let bare = |name, kind: u32, argument: u32| {
        one_fact(name, |tables| {
            let primitive = tables.primitive(kind, Z);
            condition(tables, primitive, &[argument, argument])
        })
    };
    let equality = |name, primitive: u32, other: u32| {
        one_fact(name, |tables| {
            let call = tables.primitive_call(primitive, &[VARIABLE_X]);
            tables.equality(call, other)
        })
    };
    vec![
        bare("without validator", 0, THREE).both(47, &[Z], &[ADDED_THREE]),
        bare("without row", 1, THREE).both(46, &[Z], &[ADDED_THREE]),
        bare("a sum that is not proved", SUM, ONE).both(30, &[RULE, 0, ONE, TWO], &[]),
        one_fact("a container call in a plain one", |tables| {
            let inner = tables.primitive_call(CONTAINER_C, &[VARIABLE_Y]);
            condition(tables, LOOKED_UP, &[inner])
        })
        .both(45, &[RULE, Y], &[]),
        equality("sides that differ", CONTAINER_C, ONE).both(42, &[RULE, 0, TWO, ONE], &[]),
        equality("sides that agree", CONTAINER_C, TWO),
        equality("no row", CONTAINER_D, ONE).both(46, &[D], &[]),
        equality("no validator", WITHOUT_VALIDATOR, ONE).both(51, &[NO_VALIDATOR], &[]),
    ]
}

/// As many expressions and bare conditions as a job may have; the last 16 are a rule's.
pub fn full_tables() -> Vec<HandMade> {
    let full = |value: u32| {
        let mut tables = start();
        while tables.count(Table::Expressions) < CELLS {
            tables.primitive_call(CONTAINER_C, &[VARIABLE_X]);
        }
        let facts: Vec<u32> = (0..CELLS).map(|_| tables.bare(CELLS - 1)).collect();
        step(tables, &facts[facts.len() - FACTS..], &[(X, value)])
    };
    vec![
        HandMade::new("full tables", full(ONE)),
        HandMade::new("full tables, no row", full(TWO)).strict(46, &[C], &[]),
    ]
}
