//! What a bare container condition sees, and that it binds nothing.

use job::Tables;

use super::*;

/// y = c(x), then d(y), and the other way round; globals and the substitution.
pub fn bound() -> Vec<HandMade> {
    let conditions = |early: bool, primitive: u32| {
        let mut tables = start();
        let call = tables.primitive_call(CONTAINER_C, &[VARIABLE_X]);
        let binding = tables.equality(VARIABLE_Y, call);
        let on_y = condition(&mut tables, primitive, &[VARIABLE_Y]);
        let facts = match early {
            true => [on_y, binding],
            false => [binding, on_y],
        };
        step(tables, &facts, &[(X, ONE)])
    };
    let with_global = |value: u32, pairs: &[(u32, u32)]| {
        let mut tables = start();
        tables.let_action(X, value);
        tables.globals = 1;
        let fact = condition(&mut tables, CONTAINER_C, &[VARIABLE_X]);
        step(tables, &[fact], pairs)
    };
    vec![
        HandMade::new("d of what c binds", conditions(false, CONTAINER_D)),
        HandMade::new("no row for what c binds", conditions(false, CONTAINER_C)).strict(
            46,
            &[C],
            &[],
        ),
        HandMade::new("before it is bound", conditions(true, CONTAINER_D)).strict(
            45,
            &[RULE, Y],
            &[],
        ),
        HandMade::new("bound by a global", with_global(ONE, &[])),
        HandMade::new("bound by a global, no row", with_global(TWO, &[])).strict(46, &[C], &[]),
        HandMade::new(
            "the substitution before the global",
            with_global(TWO, &[(X, ONE)]),
        ),
        HandMade::new(
            "the substitution before the global, no row",
            with_global(ONE, &[(X, TWO)]),
        )
        .strict(46, &[C], &[]),
    ]
}

/// Facts behind a condition that holds, and its head: what was not bound before is not.
pub fn binds_nothing() -> Vec<HandMade> {
    let behind = |name: u32, later: fn(&mut Tables, u32) -> u32| {
        let mut tables = start();
        let first = condition(&mut tables, CONTAINER_C, &[VARIABLE_X]);
        let variable = tables.variable(name);
        let second = later(&mut tables, variable);
        let tables = step(tables, &[first, second], &[(X, ONE)]);
        HandMade::new("an unbound variable", tables)
    };
    let names = [0, 1, 2, 3, 4, 16, C, Y, u32::MAX];
    let ordinary =
        names.map(|name| behind(name, |tables, it| tables.bare(it)).both(45, &[RULE, name], &[]));
    let bare = names.map(|name| {
        let made = behind(name, |tables, it| condition(tables, CONTAINER_D, &[it]));
        made.strict(45, &[RULE, name], &[])
    });
    // It binds the variable, so that a mistaken binding to c's value would be a mismatch.
    let binding = names.map(|name| {
        behind(name, |tables, it| {
            let call = tables.primitive_call(CONTAINER_D, &[TWO]);
            tables.equality(it, call)
        })
    });
    ordinary
        .into_iter()
        .chain(bare)
        .chain(binding)
        .chain([in_head()])
        .collect()
}

/// The head's variable is unbound.
fn in_head() -> HandMade {
    let mut tables = start();
    let fact = condition(&mut tables, CONTAINER_C, &[VARIABLE_X]);
    let head = tables.expression_action(VARIABLE_Y);
    tables.rule(RULE, &[fact], &[head]);
    let premise = tables.fiat((ONE, ONE));
    tables.rule_step((ONE, ONE), RULE, &[premise], &[(X, ONE)]);
    HandMade::new("an unbound variable in the head", tables).both(45, &[RULE, Y], &[])
}

/// One fact twice in a rule, and in two rules under other bindings.
pub fn shared_facts() -> Vec<HandMade> {
    let twice = |value: u32| {
        let mut tables = start();
        let fact = condition(&mut tables, CONTAINER_C, &[VARIABLE_X]);
        step(tables, &[fact, fact], &[(X, value)])
    };
    let around = |facts: fn(u32, u32) -> Vec<u32>| {
        let mut tables = start();
        let call = tables.primitive_call(CONTAINER_C, &[VARIABLE_X]);
        let binding = tables.equality(VARIABLE_Y, call);
        let on_y = condition(&mut tables, CONTAINER_D, &[VARIABLE_Y]);
        step(tables, &facts(on_y, binding), &[(X, ONE)])
    };
    vec![
        HandMade::new("twice", twice(ONE)),
        HandMade::new("twice, no row", twice(TWO)).strict(46, &[C], &[]),
        HandMade::new(
            "twice behind its binding",
            around(|on_y, binding| vec![binding, on_y, on_y]),
        ),
        HandMade::new(
            "before its binding and behind it",
            around(|on_y, binding| vec![on_y, binding, on_y]),
        )
        .strict(45, &[RULE, Y], &[]),
        HandMade::new("in two rules", in_two_rules(ONE, ONE)).both(0, &[ONE, ONE, 2], &[]),
        HandMade::new("no row in the rule below", in_two_rules(TWO, ONE))
            .plain(0, &[ONE, ONE, 2], &[])
            .strict(46, &[C], &[]),
        HandMade::new("no row in the rule above", in_two_rules(ONE, TWO))
            .plain(0, &[ONE, ONE, 2], &[])
            .strict(46, &[C], &[]),
    ]
}

/// A step by a rule with c(x) below one by another rule, in which the same fact stands behind its premise.
fn in_two_rules(below: u32, above: u32) -> Tables {
    let mut tables = start();
    let fact = condition(&mut tables, CONTAINER_C, &[VARIABLE_X]);
    let one = tables.bare(ONE);
    let head = tables.expression_action(ONE);
    tables.rule(RULE, &[fact], &[head]);
    tables.rule(OTHER_RULE, &[one, fact], &[head]);
    let fiat = tables.fiat((ONE, ONE));
    let premise = tables.rule_step((ONE, ONE), RULE, &[fiat], &[(X, below)]);
    let premises = [premise, fiat];
    tables.rule_step((ONE, ONE), OTHER_RULE, &premises, &[(X, above)]);
    tables
}
