//! The hostile jobs by words.

use generator::extremes;
use job::limits::{ACTIONS, CELLS, FACTS};
use job::primitives::{NEGATION, PRODUCT};

use super::ground::{Head, Shape};
use super::rows::{self, BOXES, CONDITIONS, Giving, PLAIN_ROWS, Rows};
use super::turns::{self, DEEP, Filling};
use super::{Hostile, STEPS, hostile, lists, stores, strict, towers, views};

/// Calls beside the literal, X, a view and its call.
const VIEWED: usize = CELLS as usize - 4;
/// Calls of 64 lets of one name, whose terms fill the store.
const LET_LEVELS: usize = 1_040;
/// X is bound once, then anew by each let.
const ONE_NAME: Head = Head::Turns(ACTIONS - 1);
/// As many towers as the largest store has room for.
const MANY_TURNS: Head = Head::Turns(15);

/// Rule steps and merges, each evaluating an expression of up to 4,096 levels, up to 368 times.
pub const TOWERS: &[Hostile] = &[
    hostile("head 4,095 calls deep", STEPS, |steps| {
        towers::head(steps, 1)
    }),
    hostile("head doubling 4,095 times", STEPS, |steps| {
        towers::head(steps, 2)
    }),
    hostile("head times 16, 4,095 times", STEPS, |steps| {
        towers::head(steps, 16)
    }),
    hostile("4,094 sums in each head", STEPS, |steps| {
        towers::sums(steps, 1)
    }),
    hostile("the same, of two integers in turn", STEPS, |steps| {
        towers::sums(steps, 2)
    }),
    hostile("fact 4,095 calls deep", STEPS, towers::fact),
    hostile("16 equalities of deep calls", STEPS, towers::equalities),
    hostile("16 function facts of 15 deep arguments", STEPS, |steps| {
        views::of_calls(Shape::last(1), VIEWED, FACTS, None, steps)
    }),
    hostile(
        "16 function facts, 64 unions of deep calls",
        STEPS,
        |steps| views::of_calls(Shape::last(1), VIEWED, FACTS, Some(Head::Unions), steps),
    ),
    hostile("64 unions of deep calls", STEPS, |steps| {
        turns::calls(Head::Unions, Shape::last(1), DEEP, steps)
    }),
    hostile("64 lets of one name", STEPS, |steps| {
        turns::calls(ONE_NAME, Shape::last(1), LET_LEVELS, steps)
    }),
    hostile("64 lets of 64 names", STEPS, |steps| {
        turns::calls(Head::Names, Shape::last(1), DEEP, steps)
    }),
    hostile("merge 4,095 calls deep", STEPS - 1, towers::merge),
    hostile(
        "256 global unions of deep calls",
        256,
        towers::global_unions,
    ),
    hostile("256 global lets of deep calls", 256, towers::global_lets),
    hostile("64 unions of variables bound last", STEPS, |steps| {
        views::heads_of_variables(Head::Unions, 3_824, 12, steps)
    }),
    hostile("64 lets of 64 names over such variables", STEPS, |steps| {
        views::heads_of_variables(Head::Names, 3_824, 12, steps)
    }),
    hostile(
        "16 function facts, 64 unions of variables",
        STEPS,
        |steps| views::of_variables(3_820, FACTS, Some(Head::Unions), steps),
    ),
];

/// X is bound to 1, then to calls over it, twice if nothing else is said, up to 64 lets.
pub const TURNS: &[Hostile] = &[
    hostile("X by turns, 1 argument", STEPS, |steps| {
        turns::most_calls(Filling::NOTHING, Shape::last(1), steps)
    }),
    hostile("X by turns, last of 3", STEPS, |steps| {
        turns::most_calls(Filling::NOTHING, Shape::last(3), steps)
    }),
    hostile("X by turns, first of 3", STEPS, |steps| {
        turns::most_calls(Filling::NOTHING, Shape::first(3), steps)
    }),
    hostile("X by turns, last of 15", STEPS, |steps| {
        turns::most_calls(Filling::NOTHING, Shape::last(15), steps)
    }),
    hostile("X by turns, first of 15", STEPS, |steps| {
        turns::most_calls(Filling::NOTHING, Shape::first(15), steps)
    }),
    hostile("X by turns, 1 argument, other names", STEPS, |steps| {
        turns::most_calls(Filling::OTHER_NAME, Shape::last(1), steps)
    }),
    hostile("X by turns, last of 3, other names", STEPS, |steps| {
        turns::most_calls(Filling::OTHER_NAME, Shape::last(3), steps)
    }),
    hostile("X by turns, last of 15, other names", STEPS, |steps| {
        turns::most_calls(Filling::OTHER_NAME, Shape::last(15), steps)
    }),
    hostile("X by turns, 1 argument, others alike", STEPS, |steps| {
        turns::most_calls(Filling::OTHER_CHILD, Shape::last(1), steps)
    }),
    hostile("X by turns, last of 3, others alike", STEPS, |steps| {
        turns::most_calls(Filling::OTHER_CHILD, Shape::last(3), steps)
    }),
    hostile("X by turns, first of 3, others alike", STEPS, |steps| {
        turns::most_calls(Filling::OTHER_CHILD, Shape::first(3), steps)
    }),
    hostile("X by turns, last of 15, others alike", STEPS, |steps| {
        turns::most_calls(Filling::OTHER_CHILD, Shape::last(15), steps)
    }),
    hostile("X by turns, first of 15, others alike", STEPS, |steps| {
        turns::most_calls(Filling::OTHER_CHILD, Shape::first(15), steps)
    }),
    hostile("X by 15 turns, 1 argument", STEPS, |steps| {
        turns::calls(MANY_TURNS, Shape::last(1), DEEP, steps)
    }),
    hostile("X by 15 turns, last of 16", STEPS, |steps| {
        turns::calls(MANY_TURNS, Shape::last(16), DEEP, steps)
    }),
    hostile("X by 15 turns, first of 16", STEPS, |steps| {
        turns::calls(MANY_TURNS, Shape::first(16), DEEP, steps)
    }),
    hostile("X by 63 turns, negations", STEPS, |steps| {
        turns::signs(NEGATION, DEEP, steps)
    }),
    hostile("X by 63 turns, products", STEPS, |steps| {
        turns::signs(PRODUCT, DEEP, steps)
    }),
];

/// As many calls as there may be, among as many rows.
const fn rows_of(kind: u32, shape: Shape, giving: Giving) -> Rows {
    Rows {
        kind,
        shape,
        levels: CELLS as usize - 2,
        rows: CELLS as usize,
        giving,
    }
}

/// A container's calls, all of the row that stands last.
const LAST_ROW: Rows = rows_of(BOXES, Shape::last(8), Giving::One);
/// A container's calls, alike but for the last argument, and for the first.
const BOXES_BY_LAST: Rows = rows_of(BOXES, Shape::last(8), Giving::Next);
const BOXES_BY_FIRST: Rows = rows_of(BOXES, Shape::first(8), Giving::Next);
/// The same of a plain primitive.
const PLAIN_BY_LAST: Rows = rows_of(PLAIN_ROWS, Shape::last(8), Giving::Next);
const PLAIN_BY_FIRST: Rows = rows_of(PLAIN_ROWS, Shape::first(8), Giving::Next);
/// A container's calls of one argument, with one row and with all.
const ONE_ROW: Rows = Rows {
    rows: 1,
    ..ONE_ARGUMENT
};
const ONE_ARGUMENT: Rows = rows_of(BOXES, Shape::last(1), Giving::Next);
/// As many arguments as there may be, of two rows in turn.
const TWO_ROWS: Rows = Rows {
    levels: DEEP,
    rows: 2,
    ..rows_of(BOXES, Shape::last(16), Giving::Next)
};
/// The same beside 15 variables, of as many arguments as there is room for.
const BINDING_ROWS: Rows = Rows {
    shape: Shape::last(10),
    levels: DEEP - CONDITIONS - 1,
    ..TWO_ROWS
};
/// A plain primitive's calls that come back to 1, beside a view.
const VIEWED_ROWS: Rows = Rows {
    levels: VIEWED,
    rows: VIEWED,
    ..rows_of(PLAIN_ROWS, Shape::last(3), Giving::Next)
};
/// The same with one row, of as many arguments as there is room for.
const VIEWED_ROW: Rows = Rows {
    shape: Shape::last(10),
    rows: 1,
    ..VIEWED_ROWS
};

/// Deep calls of a primitive, looked up among 4,096 rows if nothing else is said.
pub const ROWS: &[Hostile] = &[
    hostile("15 deep container conditions, one row", STEPS, |steps| {
        rows::conditions(ONE_ROW, CONDITIONS, steps)
    }),
    hostile("15 deep container conditions, all rows", STEPS, |steps| {
        rows::conditions(ONE_ARGUMENT, CONDITIONS, steps)
    }),
    hostile("a deep container condition, 4,096 rows", STEPS, |steps| {
        rows::conditions(LAST_ROW, 1, steps)
    }),
    strict("15 deep bare conditions, strict", STEPS, |steps| {
        rows::bare_conditions(ONE_ROW, CONDITIONS, steps)
    }),
    strict(
        "a deep bare condition, 4,096 rows, strict",
        STEPS,
        |steps| rows::bare_conditions(LAST_ROW, 1, steps),
    ),
    hostile("64 unions of deep calls of rows", STEPS, |steps| {
        rows::heads(Head::Unions, LAST_ROW, steps)
    }),
    hostile("64 unions, all rows, last of 8", STEPS, |steps| {
        rows::heads(Head::Unions, BOXES_BY_LAST, steps)
    }),
    hostile("64 unions, all rows, first of 8", STEPS, |steps| {
        rows::heads(Head::Unions, BOXES_BY_FIRST, steps)
    }),
    hostile("X by turns, all rows, last of 8", STEPS, |steps| {
        rows::heads(Head::Turns(2), BOXES_BY_LAST, steps)
    }),
    hostile("X by turns, all rows, first of 8", STEPS, |steps| {
        rows::heads(Head::Turns(2), BOXES_BY_FIRST, steps)
    }),
    hostile("X by turns, all plain rows, last of 8", STEPS, |steps| {
        rows::heads(Head::Turns(2), PLAIN_BY_LAST, steps)
    }),
    hostile("X by turns, all plain rows, first of 8", STEPS, |steps| {
        rows::heads(Head::Turns(2), PLAIN_BY_FIRST, steps)
    }),
    hostile("X by 63 turns, all rows, last of 8", STEPS, |steps| {
        rows::heads(ONE_NAME, BOXES_BY_LAST, steps)
    }),
    hostile("X by 63 turns, two rows, last of 16", STEPS, |steps| {
        rows::heads(ONE_NAME, TWO_ROWS, steps)
    }),
    hostile("15 bindings, X by 63 turns, two rows", STEPS, |steps| {
        rows::bindings(ONE_NAME, BINDING_ROWS, steps)
    }),
    hostile("16 function facts, 64 unions of rows", STEPS, |steps| {
        views::of_rows(VIEWED_ROWS, FACTS, Some(Head::Unions), steps)
    }),
    hostile("16 function facts, 64 unions of one row", STEPS, |steps| {
        views::of_rows(VIEWED_ROW, FACTS, Some(Head::Unions), steps)
    }),
];

/// Jobs that work on a large store.
pub const STORES: &[Hostile] = &[
    hostile("new terms until 53", 13, stores::filled),
    hostile("new terms alike until 53", 13, stores::filled_alike),
    hostile(
        "deep head, found last of 65,536",
        STEPS - stores::FILLING,
        stores::found_last,
    ),
    hostile(
        "marks of 65,536 cleared and closed",
        STEPS - stores::FILLING,
        stores::marks,
    ),
    hostile("marks by 128 evaluations", STEPS, stores::marked_values),
    hostile(
        "congruences, found last of 16,384",
        STEPS - 1,
        stores::congruences,
    ),
];

/// Jobs with long tables.
pub const LISTS: &[Hostile] = &[
    hostile("16,384 terms alike", 1, lists::terms),
    hostile("4,096 rows alike", 1, lists::rows),
    hostile("4,096 of each table", 1, lists::every_table),
    hostile("4,096 rules, the last one asked", STEPS, |steps| {
        lists::rules(steps, &lists::names())
    }),
    hostile("4,096 functions, the last one asked", STEPS - 1, |steps| {
        lists::functions(steps, &lists::names())
    }),
    hostile("normalisations that miss", STEPS, |steps| {
        lists::misses(steps, &lists::names())
    }),
    hostile("256 unions, the last one asked", STEPS, lists::unions),
    hostile("4,096 premises", 1, lists::premises),
    hostile(
        "proofs that nothing needs, 4,096 premises",
        1,
        lists::unneeded_premises,
    ),
    hostile(
        "4,094 steps that nothing needs, 4,096 rules",
        1,
        lists::unneeded_steps,
    ),
    hostile("32 pairs", 1_500, lists::pairs),
    hostile(
        "proofs doubling 4,094 times",
        STEPS - 1,
        extremes::shared_proofs,
    ),
    hostile(
        "premises times 16, 4,095 times",
        STEPS,
        lists::shared_premises,
    ),
];
