//! The numbers that a bare container condition gives in strict mode, and values that pass.

use job::Tables;

use super::*;

const GREATEST: i64 = i64::MAX;
const ADDED_GREATEST: (u32, &[u32]) = (0, &[2, u32::MAX, u32::MAX >> 1]);
const ADDED_FOUR: (u32, &[u32]) = (0, &[2, 4, 0]);
const ADDED_LESS_TWO: (u32, &[u32]) = (0, &[2, u32::MAX - 1, u32::MAX]);

/// A condition of c on a call of this primitive on these expressions, and on these behind it.
fn nested(tables: &mut Tables, primitive: u32, arguments: &[u32], behind: &[u32]) -> u32 {
    let inner = tables.primitive_call(primitive, arguments);
    condition(tables, CONTAINER_C, &[&[inner], behind].concat())
}

/// An unbound variable: the step's rule and the variable; arguments before it are evaluated.
pub fn number_45() -> Vec<HandMade> {
    let fields = [RULE, Y];
    let (y, c) = (VARIABLE_Y, CONTAINER_C);
    vec![
        one_condition("alone", c, &[y]).strict(45, &fields, &[]),
        one_condition("behind a new literal", c, &[THREE, y]).strict(45, &fields, &[ADDED_THREE]),
        one_condition("before a new literal", c, &[y, THREE]).strict(45, &fields, &[]),
        one_condition("without validator", WITHOUT_VALIDATOR, &[y]).strict(45, &fields, &[]),
        one_fact("in a container call", |tables| {
            nested(tables, CONTAINER_D, &[y], &[])
        })
        .strict(45, &fields, &[]),
    ]
}

/// No row: the primitive's name; arguments are evaluated first, from left to right.
pub fn number_46() -> Vec<HandMade> {
    let (x, y) = (VARIABLE_X, VARIABLE_Y);
    vec![
        one_condition("no such row", CONTAINER_D, &[x]).strict(46, &[D], &[]),
        one_condition("more arguments", CONTAINER_C, &[x, x]).strict(46, &[C], &[]),
        one_condition("no arguments", CONTAINER_C, &[]).strict(46, &[C], &[]),
        one_condition("a new literal", CONTAINER_C, &[THREE]).strict(46, &[C], &[ADDED_THREE]),
        one_fact("the outer call", |tables| {
            nested(tables, CONTAINER_C, &[x], &[])
        })
        .strict(46, &[C], &[]),
        one_fact("the inner call, before an unbound variable", |tables| {
            nested(tables, CONTAINER_D, &[THREE], &[y])
        })
        .strict(46, &[D], &[ADDED_THREE]),
        one_fact("an inner call that looks rows up", |tables| {
            nested(tables, LOOKED_UP, &[TWO], &[])
        })
        .strict(46, &[PLAIN], &[]),
    ]
}

/// No validator: the primitive's name, after its arguments. It is 51, not an ordinary fact's 47.
pub fn number_51() -> Vec<HandMade> {
    let fields = [NO_VALIDATOR];
    let without = WITHOUT_VALIDATOR;
    vec![
        one_condition("a new literal", without, &[THREE]).strict(51, &fields, &[ADDED_THREE]),
        one_condition("no arguments", without, &[]).strict(51, &fields, &[]),
        one_fact("one in a container call", |tables| {
            nested(tables, without, &[VARIABLE_X], &[VARIABLE_Y])
        })
        .strict(51, &fields, &[]),
        one_fact("a plain one in a container call", |tables| {
            let plain = tables.primitive(0, Z);
            nested(tables, plain, &[THREE], &[])
        })
        .strict(51, &[Z], &[ADDED_THREE]),
        one_fact("around a call without value", |tables| {
            let inner = tables.primitive_call(CONTAINER_D, &[VARIABLE_X]);
            condition(tables, without, &[inner])
        })
        .strict(46, &[D], &[]),
    ]
}

/// No room for a new term: the pool words in use. Mode 0 needs none.
pub fn number_53() -> Vec<HandMade> {
    let new_literal =
        |name, cells, pool| one_condition(name, CONTAINER_C, &[THREE]).in_room(cells, pool);
    let new_sum = |name, cells, pool| {
        let made = one_fact(name, |tables| {
            nested(tables, SUM_OF_TWO, &[VARIABLE_X, THREE], &[])
        });
        made.in_room(cells, pool)
    };
    let both = [ADDED_THREE, ADDED_FOUR];
    vec![
        new_literal("no cell", 2, 100).strict(53, &[6], &[]),
        new_literal("a pool word short", 100, 8).strict(53, &[6], &[]),
        new_literal("just enough", 3, 9).strict(46, &[C], &[ADDED_THREE]),
        new_sum("no cell for the sum", 3, 100).strict(53, &[9], &[ADDED_THREE]),
        new_sum("a pool word short for the sum", 100, 11).strict(53, &[9], &[ADDED_THREE]),
        new_sum("just enough for the sum", 4, 12).strict(46, &[C], &both),
    ]
}

/// Calls that compute, inside: with a value, a row for it or none, and without.
pub fn over_sums() -> Vec<HandMade> {
    let of = |name, first: i64, second: i64| {
        one_fact(name, move |tables| {
            let integers = [first, second].map(|value| tables.integer(value));
            nested(tables, SUM_OF_TWO, &integers, &[])
        })
    };
    let new_terms = [ADDED_THREE, ADDED_LESS_TWO];
    let new_sum = [ADDED_THREE, ADDED_FOUR];
    vec![
        of("terms added stay, accepted", 3, -2).strict(0, &[ONE, ONE, 1], &new_terms),
        of("a new sum without row", 3, 1).strict(46, &[C], &new_sum),
        of("past the range", GREATEST, 1).strict(46, &[S], &[ADDED_GREATEST]),
        one_fact("an unbound variable in the sum", |tables| {
            nested(tables, SUM_OF_TWO, &[THREE, VARIABLE_Y], &[])
        })
        .strict(45, &[RULE, Y], &[ADDED_THREE]),
    ]
}

/// Whatever the row gives: unit, false, a string, a variable, an application.
pub fn any_value() -> Vec<HandMade> {
    let results: [(u32, &[u32]); 6] = [
        (0, &[0, 0, 0]),
        (0, &[1, 0, 0]),
        (0, &[1, 1, 0]),
        (0, &[3, 0, 0]),
        (1, &[X]),
        (2, &[F, ONE]),
    ];
    let gives = |(kind, words): (u32, &[u32])| {
        one_fact("any value", |tables| {
            let result = tables.push(Table::Terms, kind, words);
            tables.row(CONTAINER_C, result, &[TWO]);
            condition(tables, CONTAINER_C, &[TWO])
        })
    };
    results.map(gives).into()
}
