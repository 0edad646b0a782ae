//! Primitives of kinds 4 to 8: what they give, where they have no value, and the store they leave.

mod common;

use common::{Ran, Room, expect, run, run_in};
use job::Tables;
use job::build::integer_words;
use job::primitives::{COUNTING, DIFFERENCE, NEGATION, PRODUCT, QUOTIENT, SUM};

const LEAST: i64 = i64::MIN;
const GREATEST: i64 = i64::MAX;
const TWO_31: i64 = 1 << 31;
const TWO_32: i64 = 1 << 32;
/// The root of the greatest, rounded down.
const ROOT: i64 = 3_037_000_499;

const F: u32 = 4;
const G: u32 = 5;
const RULE: u32 = 6;
const X: u32 = 7;
const P: u32 = 9;
const C: u32 = 10;
const ASSUMING: u32 = 11;
const NAMES: [u32; 2] = [12, 13];

const NOTHING: &[(u32, &[u32])] = &[];

/// The term of the string 5, which no call gives, and a primitive of this kind.
fn start(kind: u32) -> (Tables, u32) {
    let mut tables = Tables::default();
    tables.term_literal([3, 5, 0]);
    let primitive = tables.primitive(kind, P);
    (tables, primitive)
}

/// A global call of these integers; the fiat of the string is asked for.
fn global_call(kind: u32, arguments: &[i64]) -> Tables {
    let (mut tables, primitive) = start(kind);
    let arguments: Vec<u32> = arguments
        .iter()
        .map(|&value| tables.integer(value))
        .collect();
    let call = tables.primitive_call(primitive, &arguments);
    tables.expression_action(call);
    tables.globals = 1;
    tables.fiat((0, 0));
    tables
}

/// Literals of these integers, each once.
fn literals(integers: &[i64]) -> Vec<[u32; 3]> {
    let mut words: Vec<[u32; 3]> = Vec::new();
    for &value in integers {
        if !words.contains(&integer_words(value)) {
            words.push(integer_words(value));
        }
    }
    words
}

/// The answer, and these literals added.
#[track_caller]
fn expect_literals(ran: Ran, number: u32, own: u32, fields: &[u32], integers: &[i64]) {
    let words = literals(integers);
    let added: Vec<(u32, &[u32])> = words.iter().map(|words| (0, &words[..])).collect();
    let terms = own + added.len() as u32;
    expect(ran, number, terms, fields, &added);
}

/// The call has this value: it is added after its arguments.
#[track_caller]
fn gives(kind: u32, arguments: &[i64], value: i64) {
    let all = [arguments, &[value]].concat();
    let tables = global_call(kind, arguments);
    expect_literals(run(&tables), 0, 1, &[0, 0, 1], &all);
}

/// The call has no value: 46 with its name, its arguments added.
#[track_caller]
fn gives_nothing(kind: u32, arguments: &[i64]) {
    let tables = global_call(kind, arguments);
    expect_literals(run(&tables), 46, 1, &[P], arguments);
}

#[test]
fn sums() {
    for (first, second, value) in [
        (1, 2, 3),
        (0, 0, 0),
        (-1, 1, 0),
        (-1, -1, -2),
        (LEAST, 0, LEAST),
        (LEAST, GREATEST, -1),
        (LEAST + 1, -1, LEAST),
        (LEAST, 1, LEAST + 1),
        (GREATEST - 1, 1, GREATEST),
        (GREATEST, -1, GREATEST - 1),
        (TWO_31 - 1, 1, TWO_31),
        (TWO_31, TWO_31, TWO_32),
        (TWO_32 - 1, 1, TWO_32),
        (-TWO_32, -1, -TWO_32 - 1),
        (TWO_32, -1, TWO_32 - 1),
        (1 << 62, (1 << 62) - 1, GREATEST),
        (-(1 << 62), -(1 << 62), LEAST),
    ] {
        gives(SUM, &[first, second], value);
        gives(SUM, &[second, first], value);
    }
    for (first, second) in [
        (GREATEST, 1),
        (GREATEST, GREATEST),
        (LEAST, -1),
        (LEAST, LEAST),
        (1 << 62, 1 << 62),
        (-(1 << 62), -(1 << 62) - 1),
    ] {
        gives_nothing(SUM, &[first, second]);
        gives_nothing(SUM, &[second, first]);
    }
}

#[test]
fn differences() {
    for (first, second, value) in [
        (5, 3, 2),
        (3, 5, -2),
        (0, 0, 0),
        (0, 1, -1),
        (0, GREATEST, LEAST + 1),
        (-1, GREATEST, LEAST),
        (-1, LEAST, GREATEST),
        (LEAST, LEAST, 0),
        (LEAST, -1, LEAST + 1),
        (LEAST + 1, 1, LEAST),
        (GREATEST, 1, GREATEST - 1),
        (GREATEST - 1, -1, GREATEST),
        (TWO_31, 1, TWO_31 - 1),
        (TWO_32, 1, TWO_32 - 1),
        (TWO_32 - 1, -1, TWO_32),
        (-TWO_31, TWO_31, -TWO_32),
        (0, TWO_32 + 1, -TWO_32 - 1),
    ] {
        gives(DIFFERENCE, &[first, second], value);
    }
    for (first, second) in [
        (LEAST, 1),
        (GREATEST, -1),
        (0, LEAST),
        (-2, GREATEST),
        (GREATEST, LEAST),
        (LEAST, GREATEST),
    ] {
        gives_nothing(DIFFERENCE, &[first, second]);
    }
}

#[test]
fn products() {
    for (first, second, value) in [
        (3, 4, 12),
        (-3, 4, -12),
        (-3, -4, 12),
        (0, LEAST, 0),
        (0, GREATEST, 0),
        (1, LEAST, LEAST),
        (1, GREATEST, GREATEST),
        (-1, GREATEST, LEAST + 1),
        (-1, LEAST + 1, GREATEST),
        (TWO_31, 2, TWO_32),
        (TWO_31, TWO_31, 1 << 62),
        (TWO_32, TWO_31 - 1, 9_223_372_032_559_808_512),
        (TWO_32, -TWO_31, LEAST),
        (-TWO_32, TWO_31, LEAST),
        (1 << 62, -2, LEAST),
        (LEAST / 2, 2, LEAST),
        (GREATEST / 7, 7, GREATEST),
        (ROOT, ROOT, 9_223_372_030_926_249_001),
        (-ROOT, ROOT, -9_223_372_030_926_249_001),
        (-ROOT, -ROOT, 9_223_372_030_926_249_001),
    ] {
        gives(PRODUCT, &[first, second], value);
        gives(PRODUCT, &[second, first], value);
    }
}

#[test]
fn products_past_the_range() {
    for (first, second) in [
        (-1, LEAST),
        (2, GREATEST),
        (2, LEAST),
        (LEAST, LEAST),
        (GREATEST, GREATEST),
        (TWO_32, TWO_31),
        (-TWO_32, -TWO_31),
        (TWO_32, -TWO_31 - 1),
        (TWO_32, TWO_32),
        (ROOT + 1, ROOT + 1),
        (-ROOT - 1, ROOT + 1),
        (-ROOT - 1, -ROOT - 1),
    ] {
        gives_nothing(PRODUCT, &[first, second]);
        gives_nothing(PRODUCT, &[second, first]);
    }
}

#[test]
fn negations() {
    for (only, value) in [
        (0, 0),
        (1, -1),
        (-1, 1),
        (GREATEST, LEAST + 1),
        (LEAST + 1, GREATEST),
        (TWO_31, -TWO_31),
        (-TWO_31, TWO_31),
        (TWO_32, -TWO_32),
        (TWO_32 - 1, 1 - TWO_32),
        (-TWO_32 - 1, TWO_32 + 1),
    ] {
        gives(NEGATION, &[only], value);
    }
    gives_nothing(NEGATION, &[LEAST]);
}

#[test]
fn quotients() {
    for (first, second, value) in [
        (7, 2, 3),
        (-7, 2, -3),
        (7, -2, -3),
        (-7, -2, 3),
        (1, 2, 0),
        (-1, 2, 0),
        (1, -2, 0),
        (0, -1, 0),
        (0, LEAST, 0),
        (6, 3, 2),
        (-6, 3, -2),
        (LEAST, 1, LEAST),
        (LEAST, 2, -(1 << 62)),
        (LEAST, -2, 1 << 62),
        (LEAST + 1, -1, GREATEST),
        (GREATEST, -1, LEAST + 1),
        (LEAST, LEAST, 1),
        (GREATEST, GREATEST, 1),
        (GREATEST, LEAST, 0),
        (LEAST, GREATEST, -1),
        (LEAST, TWO_32, -TWO_31),
        (LEAST, -TWO_32, TWO_31),
        (GREATEST, TWO_32, TWO_31 - 1),
        (TWO_32, TWO_31, 2),
        (TWO_32 - 1, TWO_32, 0),
        (-TWO_32 - 1, TWO_32, -1),
    ] {
        gives(QUOTIENT, &[first, second], value);
    }
    for (first, second) in [(1, 0), (0, 0), (-1, 0), (LEAST, 0), (GREATEST, 0)] {
        gives_nothing(QUOTIENT, &[first, second]);
    }
    gives_nothing(QUOTIENT, &[LEAST, -1]);
}

/// 46 where it is evaluated, not 6.
#[test]
fn wrong_counts_of_arguments() {
    for kind in COUNTING {
        let counts: &[usize] = match kind {
            NEGATION => &[0, 2, 3, 16],
            _ => &[0, 1, 3, 16],
        };
        for &count in counts {
            gives_nothing(kind, &vec![1; count]);
        }
    }
}

/// A call with this term for its variable, on either side of 1 where it takes two.
#[track_caller]
fn nothing_of(kind: u32, term: fn(&mut Tables) -> u32) {
    for place in 0..2 {
        let (mut tables, primitive) = start(kind);
        tables.term_integer(1);
        let term = term(&mut tables);
        let one = tables.integer(1);
        let variable = tables.variable(X);
        let arguments = match (kind, place) {
            (NEGATION, _) => vec![variable],
            (_, 0) => vec![variable, one],
            _ => vec![one, variable],
        };
        let call = tables.primitive_call(primitive, &arguments);
        let head = tables.expression_action(call);
        tables.rule(RULE, &[], &[head]);
        tables.rule_step((0, 0), RULE, &[], &[(X, term)]);
        let terms = tables.count(job::Table::Terms);
        expect(run(&tables), 46, terms, &[P], NOTHING);
    }
}

#[test]
fn wrong_kinds_of_arguments() {
    for kind in COUNTING {
        nothing_of(kind, |_| 0);
        nothing_of(kind, |tables| tables.term_literal([0, 0, 0]));
        nothing_of(kind, |tables| tables.term_literal([1, 0, 0]));
        nothing_of(kind, |tables| tables.term_literal([1, 1, 0]));
        nothing_of(kind, |tables| tables.term_literal([3, 1, 0]));
        nothing_of(kind, |tables| tables.term_variable(1));
        nothing_of(kind, |tables| tables.term_variable(2));
        nothing_of(kind, |tables| tables.term_variable(F));
        nothing_of(kind, |tables| tables.term_application(F, &[]));
        nothing_of(kind, |tables| tables.term_application(F, &[1]));
        // Its words are those of an integer: 2, then two more.
        nothing_of(kind, |tables| tables.term_application(2, &[1, 0]));
    }
}

/// Its number is taken: 3 stands in the table, and its sum adds nothing.
#[test]
fn a_result_in_the_table() {
    let (mut tables, sum) = start(SUM);
    for value in [3, 2, 1] {
        tables.term_integer(value);
    }
    let [one, two] = [1, 2].map(|value| tables.integer(value));
    let call = tables.primitive_call(sum, &[one, two]);
    tables.union_action(call, one);
    tables.globals = 1;
    tables.fiat((1, 3));
    let room = Room { cells: 4, pool: 12 };
    expect(run_in(&tables, &room), 0, 4, &[1, 3, 1], NOTHING);
}

/// Terms that share words with the integer 3 are not 1 + 2.
#[test]
fn terms_that_are_no_result() {
    let (mut tables, sum) = start(SUM);
    for words in [[3, 3, 0], [2, 3, 1], [2, 3, u32::MAX], [2, 1, 0], [2, 2, 0]] {
        tables.term_literal(words);
    }
    tables.term_variable(3);
    tables.term_application(2, &[3, 0]);
    let [one, two] = [1, 2].map(|value| tables.integer(value));
    let call = tables.primitive_call(sum, &[one, two]);
    tables.expression_action(call);
    tables.globals = 1;
    tables.fiat((0, 0));
    expect_literals(run(&tables), 0, 8, &[0, 0, 1], &[3]);
}

/// F(4, 1 + 2, 5): 4, then 1, 2, 3, then 5, then the application.
#[test]
fn a_new_result_stands_after_its_arguments() {
    let (mut tables, sum) = start(SUM);
    let [four, one, two, five] = [4, 1, 2, 5].map(|value| tables.integer(value));
    let inner = tables.primitive_call(sum, &[one, two]);
    let call = tables.constructor(F, &[four, inner, five]);
    tables.expression_action(call);
    tables.globals = 1;
    tables.fiat((0, 0));
    let words = literals(&[4, 1, 2, 3, 5]);
    let mut added: Vec<(u32, &[u32])> = words.iter().map(|words| (0, &words[..])).collect();
    added.push((2, &[F, 1, 4, 5]));
    expect(run(&tables), 0, 7, &[0, 0, 1], &added);
}

/// (2 * 3) + -(4): 2, 3, 6, 4, -4, and 2 again.
#[test]
fn calls_in_each_other() {
    let (mut tables, sum) = start(SUM);
    let product = tables.primitive(PRODUCT, P + 10);
    let negation = tables.primitive(NEGATION, P + 11);
    let [two, three, four] = [2, 3, 4].map(|value| tables.integer(value));
    let six = tables.primitive_call(product, &[two, three]);
    let minus_four = tables.primitive_call(negation, &[four]);
    let call = tables.primitive_call(sum, &[six, minus_four]);
    tables.let_action(X, call);
    tables.globals = 1;
    tables.fiat((0, 0));
    let integers = [2, 3, 6, 4, -4];
    expect_literals(run(&tables), 0, 1, &[0, 0, 1], &integers);
}

/// The inner call's name, and the outer one's arguments stay undone.
#[test]
fn no_value_inside_another_call() {
    let (mut tables, quotient) = start(QUOTIENT);
    let sum = tables.primitive(SUM, P + 10);
    let [one, zero, two] = [1, 0, 2].map(|value| tables.integer(value));
    let inner = tables.primitive_call(quotient, &[one, zero]);
    let outer = tables.primitive_call(sum, &[inner, two]);
    tables.expression_action(outer);
    tables.globals = 1;
    tables.fiat((0, 0));
    expect_literals(run(&tables), 46, 1, &[P], &[1, 0]);
}

/// 53 with the words in use: no free cell, or fewer than three free words.
#[test]
fn a_result_without_room() {
    let tables = global_call(SUM, &[1, 2]);
    let run_with = |cells, pool| run_in(&tables, &Room { cells, pool });
    expect_literals(run_with(3, 100), 53, 1, &[9], &[1, 2]);
    for pool in [9, 10, 11] {
        expect_literals(run_with(100, pool), 53, 1, &[9], &[1, 2]);
    }
    expect_literals(run_with(4, 12), 0, 1, &[0, 0, 1], &[1, 2, 3]);
    // A result that is there needs no room.
    let tables = global_call(SUM, &[1, 0]);
    let room = Room { cells: 3, pool: 9 };
    expect_literals(run_in(&tables, &room), 0, 1, &[0, 0, 1], &[1, 0]);
}

/// Only a result that exists can lack room.
#[test]
fn no_value_in_a_full_store() {
    for (kind, arguments) in [
        (SUM, vec![GREATEST, 1]),
        (DIFFERENCE, vec![LEAST, 1]),
        (PRODUCT, vec![TWO_32, TWO_31]),
        (NEGATION, vec![LEAST]),
        (QUOTIENT, vec![LEAST, -1]),
        (QUOTIENT, vec![1, 0]),
        (SUM, vec![1]),
        (NEGATION, vec![1, 2]),
    ] {
        let tables = global_call(kind, &arguments);
        let cells = 1 + arguments.len();
        let room = Room {
            cells,
            pool: 3 * cells,
        };
        expect_literals(run_in(&tables, &room), 46, 1, &[P], &arguments);
    }
}

/// F(8, 1) and F(8, 2) with the merge old o new; the claim is the view of the given value.
fn merge(kind: u32, claimed: i64, with_term: bool) -> Tables {
    let (mut tables, primitive) = start(kind);
    let [eight, one, two] = [8, 1, 2].map(|value| tables.term_integer(value));
    let old_view = tables.term_application(F, &[eight, one]);
    let new_view = tables.term_application(F, &[eight, two]);
    let claimed = match with_term {
        true => {
            let value = tables.term_integer(claimed);
            tables.term_application(F, &[eight, value])
        }
        false => old_view,
    };
    let inputs = [8, 1, 2].map(|value| tables.integer(value));
    for value in [inputs[1], inputs[2]] {
        let call = tables.custom(F, &[inputs[0], value]);
        tables.set_action(call);
    }
    tables.globals = 2;
    let views = [0, 1].map(|name| tables.variable(name));
    let arguments = match kind {
        NEGATION => &views[..1],
        _ => &views[..],
    };
    let call = tables.primitive_call(primitive, arguments);
    tables.function(F, call);
    let old = tables.fiat((old_view, old_view));
    let new = tables.fiat((new_view, new_view));
    tables.merge_step((claimed, claimed), F, old, new);
    tables
}

#[test]
fn merges() {
    for (kind, value) in [(SUM, 3), (DIFFERENCE, -1), (NEGATION, -1), (QUOTIENT, 0)] {
        let tables = merge(kind, value, true);
        expect(run(&tables), 0, 8, &[7, 7, 2], NOTHING);
        let tables = merge(kind, value + 4, true);
        let words = integer_words(value);
        let added: [(u32, &[u32]); 2] = [(0, &words), (2, &[F, 1, 8])];
        expect(run(&tables), 38, 10, &[2, 7, 7], &added);
    }
    // 1 * 2 is there, and so is the view.
    let tables = merge(PRODUCT, 2, false);
    expect(run(&tables), 38, 6, &[2, 4, 4], NOTHING);
}

/// The result, then the merged view; 53 for either.
#[test]
fn a_merge_that_adds() {
    let tables = merge(SUM, 0, false);
    let words = integer_words(3);
    let added: [(u32, &[u32]); 2] = [(0, &words), (2, &[F, 1, 6])];
    expect(run(&tables), 38, 8, &[2, 4, 4], &added);
    let run_with = |cells, pool| run_in(&tables, &Room { cells, pool });
    expect(run_with(6, 100), 53, 6, &[18], NOTHING);
    expect(run_with(100, 20), 53, 6, &[18], NOTHING);
    expect(run_with(7, 100), 53, 7, &[21], &added[..1]);
    expect(run_with(100, 23), 53, 7, &[21], &added[..1]);
    expect(run_with(8, 24), 38, 8, &[2, 4, 4], &added);
}

#[test]
fn a_merge_without_value() {
    let (mut tables, sum) = start(SUM);
    let view = tables.term_application(F, &[0]);
    let string = tables.literal([3, 5, 0]);
    let call = tables.custom(F, &[string]);
    tables.set_action(call);
    tables.globals = 1;
    let [old, new] = [0, 1].map(|name| tables.variable(name));
    let merge = tables.primitive_call(sum, &[old, new]);
    tables.function(F, merge);
    let proof = tables.fiat((view, view));
    tables.merge_step((view, view), F, proof, proof);
    expect(run(&tables), 46, 2, &[P], NOTHING);
}

/// The string, 1, 2, 3; a sum, a container primitive with the row c(3) -> 2, and the rule by which
/// anything is assumed. Expressions 0: 1, 1: 2, 2: 1 + 2, 3: c(1 + 2), 4: X.
fn facts() -> Tables {
    let (mut tables, sum) = start(SUM);
    for value in [1, 2, 3] {
        tables.term_integer(value);
    }
    let container = tables.primitive(3, C);
    tables.row(container, TWO, &[THREE]);
    let [one, two] = [1, 2].map(|value| tables.integer(value));
    let call = tables.primitive_call(sum, &[one, two]);
    tables.primitive_call(container, &[call]);
    tables.variable(X);
    let sides = NAMES.map(|name| tables.variable(name));
    let action = tables.union_action(sides[0], sides[1]);
    tables.rule(ASSUMING, &[], &[action]);
    tables
}

const ONE: u32 = 1;
const TWO: u32 = 2;
const THREE: u32 = 3;
const LITERAL_ONE: u32 = 0;
const LITERAL_TWO: u32 = 1;
const ONE_AND_TWO: u32 = 2;
const CONTAINER: u32 = 3;
const VARIABLE: u32 = 4;

/// A rule with this fact, opposite a proof of this pair, X bound if a term is given; its head is 1.
fn with_fact(mut tables: Tables, fact: u32, proved: (u32, u32), x: Option<u32>) -> Ran {
    let head = tables.expression_action(LITERAL_ONE);
    tables.rule(RULE, &[fact], &[head]);
    let pairs = [(NAMES[0], proved.0), (NAMES[1], proved.1)];
    let premise = tables.rule_step(proved, ASSUMING, &[], &pairs);
    let bound: Vec<(u32, u32)> = x.iter().map(|&term| (X, term)).collect();
    tables.rule_step((ONE, ONE), RULE, &[premise], &bound);
    run(&tables)
}

/// x = 1 + 2 needs a proof of x's term and 3, in that order.
#[test]
fn an_equality_as_an_ordinary_fact() {
    let equality = |left, right, proved, x| {
        let mut tables = facts();
        let fact = tables.equality(left, right);
        with_fact(tables, fact, proved, x)
    };
    let passes = [ONE, ONE, 2];
    let ran = equality(VARIABLE, ONE_AND_TWO, (TWO, THREE), Some(TWO));
    expect(ran, 0, 4, &passes, NOTHING);
    let ran = equality(ONE_AND_TWO, VARIABLE, (THREE, TWO), Some(TWO));
    expect(ran, 0, 4, &passes, NOTHING);
    for proved in [(TWO, TWO), (THREE, TWO), (THREE, THREE)] {
        let ran = equality(VARIABLE, ONE_AND_TWO, proved, Some(TWO));
        let fields = [RULE, 0, TWO, THREE, proved.0, proved.1];
        expect(ran, 29, 4, &fields, NOTHING);
    }
    // It binds nothing.
    let ran = equality(VARIABLE, ONE_AND_TWO, (THREE, THREE), None);
    expect(ran, 45, 4, &[RULE, X], NOTHING);
}

/// Only the premise's right side is compared.
#[test]
fn a_bare_call_as_an_ordinary_fact() {
    let bare = |proved| {
        let mut tables = facts();
        let fact = tables.bare(ONE_AND_TWO);
        with_fact(tables, fact, proved, None)
    };
    expect(bare((ONE, THREE)), 0, 4, &[ONE, ONE, 2], NOTHING);
    expect(bare((THREE, ONE)), 30, 4, &[RULE, 0, ONE, THREE], NOTHING);
}

/// A bare call of any of them is no side condition: its premise is checked.
#[test]
fn none_of_them_gives_containers() {
    for kind in COUNTING {
        for bare in [true, false] {
            let (mut tables, primitive) = start(kind);
            let one = tables.integer(1);
            let call = tables.primitive_call(primitive, &[one, one]);
            let variable = tables.variable(X);
            let fact = match bare {
                true => tables.bare(call),
                false => tables.equality(variable, call),
            };
            tables.rule(RULE, &[fact], &[]);
            let premise = tables.eval((0, 0));
            tables.rule_step((0, 0), RULE, &[premise], &[]);
            expect(run(&tables), 41, 1, &[premise], NOTHING);
        }
    }
}

#[test]
fn no_value_in_an_ordinary_fact() {
    let mut tables = facts();
    let string = tables.literal([3, 5, 0]);
    let call = tables.primitive_call(0, &[LITERAL_ONE, string]);
    let fact = tables.equality(LITERAL_TWO, call);
    let ran = with_fact(tables, fact, (TWO, TWO), None);
    expect(ran, 46, 4, &[P], NOTHING);
}

/// A result that no term of the job is: it is added, and 29 names it.
#[test]
fn an_ordinary_fact_that_adds() {
    let mut tables = facts();
    let call = tables.primitive_call(0, &[LITERAL_TWO, LITERAL_TWO]);
    let fact = tables.equality(LITERAL_ONE, call);
    let ran = with_fact(tables, fact, (ONE, THREE), None);
    let fields = [RULE, 0, ONE, 4, ONE, THREE];
    expect_literals(ran, 29, 4, &fields, &[4]);
}

/// G(1 + 2) = x: the view G(3, x).
#[test]
fn a_function_fact_with_a_call() {
    let mut tables = facts();
    let view = tables.term_application(G, &[THREE, ONE]);
    let call = tables.custom(G, &[ONE_AND_TWO]);
    let fact = tables.equality(call, VARIABLE);
    let ran = with_fact(tables.clone(), fact, (view, view), Some(ONE));
    expect(ran, 0, 5, &[ONE, ONE, 2], NOTHING);
    let ran = with_fact(tables, fact, (view, view), Some(TWO));
    let fields = [RULE, 5, view, view];
    expect(ran, 28, 6, &fields, &[(2, &[G, THREE, TWO])]);
}

/// A constructor or custom call under them is 49.
#[test]
fn calls_under_them() {
    for kind in COUNTING {
        for custom in [false, true] {
            let mut tables = facts();
            let primitive = tables.primitive(kind, P + 1);
            let inner = match custom {
                false => tables.constructor(F, &[]),
                true => tables.custom(F, &[]),
            };
            let call = tables.primitive_call(primitive, &[LITERAL_ONE, inner]);
            let fact = tables.bare(call);
            let ran = with_fact(tables, fact, (ONE, ONE), None);
            expect(ran, 49, 4, &[RULE, inner], NOTHING);
        }
    }
}

/// They under a constructor call are no 50: F(2 o 1) and F(-(-2)) are evaluated.
#[test]
fn they_under_a_call() {
    for (kind, value) in [
        (SUM, THREE),
        (DIFFERENCE, ONE),
        (PRODUCT, TWO),
        (NEGATION, TWO),
        (QUOTIENT, TWO),
    ] {
        let mut tables = facts();
        let term = tables.term_application(F, &[value]);
        tables.term_integer(-2);
        let primitive = tables.primitive(kind, P + 1);
        let minus_two = tables.integer(-2);
        let inner = match kind {
            NEGATION => tables.primitive_call(primitive, &[minus_two]),
            _ => tables.primitive_call(primitive, &[LITERAL_TWO, LITERAL_ONE]),
        };
        let call = tables.constructor(F, &[inner]);
        let fact = tables.equality(call, VARIABLE);
        let ran = with_fact(tables.clone(), fact, (term, ONE), Some(ONE));
        expect(ran, 0, 6, &[ONE, ONE, 2], NOTHING);
        let ran = with_fact(tables, fact, (ONE, ONE), Some(ONE));
        expect(ran, 29, 6, &[RULE, 0, term, ONE, ONE, ONE], NOTHING);
    }
}

#[test]
fn calls_in_a_side_condition() {
    let condition = |left, right, x| {
        let mut tables = facts();
        let fact = tables.equality(left, right);
        with_fact(tables, fact, (0, 0), x)
    };
    let passes = [ONE, ONE, 1];
    // c(1 + 2) is 2, whatever side it stands on; it binds X.
    for x in [None, Some(TWO)] {
        expect(condition(CONTAINER, VARIABLE, x), 0, 4, &passes, NOTHING);
        expect(condition(VARIABLE, CONTAINER, x), 0, 4, &passes, NOTHING);
    }
    // c(1 + 2) opposite 1 + 2.
    let ran = condition(CONTAINER, ONE_AND_TWO, None);
    expect(ran, 42, 4, &[RULE, 0, TWO, THREE], NOTHING);
    let ran = condition(ONE_AND_TWO, CONTAINER, None);
    expect(ran, 42, 4, &[RULE, 0, THREE, TWO], NOTHING);
}

/// c(1 + 2) opposite 1 + 1 passes; opposite 2 + 2 the new 4 stays in the store.
#[test]
fn a_call_opposite_a_container_call() {
    let opposite = |arguments: [u32; 2]| {
        let mut tables = facts();
        let call = tables.primitive_call(0, &arguments);
        let fact = tables.equality(CONTAINER, call);
        with_fact(tables, fact, (0, 0), None)
    };
    let ran = opposite([LITERAL_ONE, LITERAL_ONE]);
    expect(ran, 0, 4, &[ONE, ONE, 1], NOTHING);
    let ran = opposite([LITERAL_TWO, LITERAL_TWO]);
    expect_literals(ran, 42, 4, &[RULE, 0, TWO, 4], &[4]);
}

/// 46 with the computing call's name; with the container call's where its row is missing.
#[test]
fn no_value_in_a_side_condition() {
    let mut tables = facts();
    let string = tables.literal([3, 5, 0]);
    let inner = tables.primitive_call(0, &[LITERAL_ONE, string]);
    let call = tables.primitive_call(1, &[inner]);
    let fact = tables.equality(VARIABLE, call);
    let ran = with_fact(tables, fact, (0, 0), None);
    expect(ran, 46, 4, &[P], NOTHING);

    let mut tables = facts();
    let inner = tables.primitive_call(0, &[LITERAL_TWO, LITERAL_TWO]);
    let call = tables.primitive_call(1, &[inner]);
    let fact = tables.equality(VARIABLE, call);
    let ran = with_fact(tables, fact, (0, 0), None);
    expect_literals(ran, 46, 4, &[C], &[4]);
}

/// A bare container condition passes unevaluated, whatever is in it.
#[test]
fn no_value_in_a_bare_condition() {
    let mut tables = facts();
    let inner = tables.primitive_call(0, &[]);
    let call = tables.primitive_call(1, &[inner]);
    let fact = tables.bare(call);
    let ran = with_fact(tables, fact, (0, 0), None);
    expect(ran, 0, 4, &[ONE, ONE, 1], NOTHING);
}

/// Let, union, set and expression: the pairs that they give.
#[test]
fn calls_in_global_actions() {
    let global = |claimed: (u32, u32), action: fn(&mut Tables)| {
        let mut tables = facts();
        tables.of_mut(job::Table::Actions).clear();
        tables.of_mut(job::Table::Rules).clear();
        action(&mut tables);
        tables.globals = tables.count(job::Table::Actions);
        tables.fiat(claimed);
        run(&tables)
    };
    let ran = global((THREE, ONE), |tables| {
        tables.union_action(ONE_AND_TWO, LITERAL_ONE);
    });
    expect(ran, 0, 4, &[THREE, ONE, 1], NOTHING);
    let ran = global((ONE, THREE), |tables| {
        tables.let_action(X, ONE_AND_TWO);
        tables.union_action(LITERAL_ONE, VARIABLE);
    });
    expect(ran, 0, 4, &[ONE, THREE, 1], NOTHING);
    let ran = global((THREE, TWO), |tables| {
        tables.set_action(ONE_AND_TWO);
        tables.expression_action(ONE_AND_TWO);
    });
    expect(ran, 33, 4, &[0, THREE, TWO], NOTHING);
    let ran = global((ONE, ONE), |tables| {
        let call = tables.primitive_call(0, &[LITERAL_ONE]);
        tables.set_action(call);
    });
    expect(ran, 46, 4, &[P], NOTHING);
}

/// A head unites 1 + 2 with 1; it gives 3, and each argument equal to itself.
#[test]
fn calls_in_a_head() {
    let head = |claimed: (u32, u32)| {
        let mut tables = facts();
        let action = tables.union_action(ONE_AND_TWO, LITERAL_ONE);
        tables.rule(RULE, &[], &[action]);
        tables.rule_step(claimed, RULE, &[], &[]);
        run(&tables)
    };
    for claimed in [
        (THREE, ONE),
        (ONE, THREE),
        (THREE, THREE),
        (ONE, ONE),
        (TWO, TWO),
    ] {
        expect(head(claimed), 0, 4, &[claimed.0, claimed.1, 1], NOTHING);
    }
    expect(head((TWO, THREE)), 31, 4, &[RULE, TWO, THREE], NOTHING);
}

/// A set of such a call passes 6 and is evaluated like any other: 3, 1 and 2 equal to themselves.
#[test]
fn a_set_of_a_call() {
    let set = |claimed: (u32, u32)| {
        let mut tables = facts();
        let action = tables.set_action(ONE_AND_TWO);
        tables.rule(RULE, &[], &[action]);
        tables.rule_step(claimed, RULE, &[], &[]);
        run(&tables)
    };
    for term in [ONE, TWO, THREE] {
        expect(set((term, term)), 0, 4, &[term, term, 1], NOTHING);
    }
    for claimed in [(0, 0), (ONE, THREE), (THREE, TWO)] {
        let fields = [RULE, claimed.0, claimed.1];
        expect(set(claimed), 31, 4, &fields, NOTHING);
    }
}

/// 46, not 51 or 47: each of them has a validator.
#[test]
fn no_value_in_a_head() {
    for kind in COUNTING {
        let (mut tables, primitive) = start(kind);
        let call = tables.primitive_call(primitive, &[]);
        let action = tables.let_action(X, call);
        tables.rule(RULE, &[], &[action]);
        tables.rule_step((0, 0), RULE, &[], &[]);
        expect(run(&tables), 46, 1, &[P], NOTHING);
    }
}

/// A string, primitives of kinds 1 and of this one, and the string's fiat: cells 0, 1, 2 and 3.
fn load(kind: u32) -> Tables {
    let (mut tables, _) = start(1);
    tables.primitive(kind, P);
    tables.fiat((0, 0));
    tables
}

/// Rows stand before normalisers, and the least such cell is the field.
#[test]
fn number_8() {
    for kind in COUNTING {
        expect(run(&load(kind)), 0, 1, &[0, 0, 1], NOTHING);
        let mut tables = load(kind);
        tables.row(0, 0, &[]);
        tables.row(1, 0, &[]);
        tables.row(1, 0, &[0]);
        expect(run(&tables), 8, 0, &[4], NOTHING);
        let mut tables = load(kind);
        tables.row(0, 0, &[]);
        tables.normaliser(F, 0);
        tables.normaliser(G, 1);
        expect(run(&tables), 8, 0, &[5], NOTHING);
        tables.row(1, 0, &[0, 0]);
        expect(run(&tables), 8, 0, &[4], NOTHING);
    }
}

/// One word for each kind up to 8.
#[test]
fn number_6() {
    for kind in [9, 10, 16, 1 << 31 | SUM, u32::MAX] {
        expect(run(&load(kind)), 6, 0, &[2], NOTHING);
    }
    for kind in COUNTING {
        for words in [&[][..], &[P, P]] {
            let mut tables = load(kind);
            tables.push(job::Table::Primitives, kind, words);
            expect(run(&tables), 6, 0, &[3], NOTHING);
        }
    }
}
