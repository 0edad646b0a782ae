//! The hostile jobs by bytes: as many expressions at as many steps as 65,536 bytes have room for, about half of them
//! for each.

use job::Tables;
use job::limits::ACTIONS;
use job::primitives::{NEGATION, PRODUCT};

use super::ground::{Head, Shape};
use super::rows::{self, BOXES, Giving, Rows};
use super::turns::{self, Filling};
use super::{Hostile, by_bytes_entry, hostile, views};

const fn bytes(name: &'static str, most: usize, tables: fn(usize) -> Tables) -> Hostile {
    by_bytes_entry(hostile(name, most, tables))
}

/// A container's calls, so many of so many arguments, among so many rows.
const fn few_rows(rows: usize, width: usize, levels: usize) -> Rows {
    Rows {
        kind: BOXES,
        shape: Shape::last(width),
        levels,
        rows,
        giving: Giving::Next,
    }
}

/// All of the row that stands last.
const LAST_ROW: Rows = Rows {
    giving: Giving::One,
    ..few_rows(900, 1, 1_135)
};

pub const BYTES: &[Hostile] = &[
    bytes("X by turns, 1 argument, bytes", 1_161, |steps| {
        turns::calls(Head::Turns(2), Shape::last(1), 2_033, steps)
    }),
    bytes("X by turns, last of 3, bytes", 1_135, |steps| {
        let filling = Filling::alike(40, 35);
        turns::calls_among(filling, Head::Turns(2), Shape::last(3), 1_324, steps)
    }),
    bytes("X by turns, last of 15, bytes", 1_147, |steps| {
        let filling = Filling::alike(15, 8);
        turns::calls_among(filling, Head::Turns(2), Shape::last(15), 446, steps)
    }),
    bytes("X by 3 turns, 1 argument, bytes", 1_546, |steps| {
        turns::calls(Head::Turns(3), Shape::last(1), 1_360, steps)
    }),
    bytes("X by 63 turns, negations, bytes", 1_160, |steps| {
        turns::signs(NEGATION, 2_033, steps)
    }),
    bytes("X by 63 turns, products, bytes", 1_160, |steps| {
        turns::signs(PRODUCT, 1_625, steps)
    }),
    bytes("64 unions of deep calls, bytes", 1_161, |steps| {
        turns::calls(Head::Unions, Shape::last(1), 2_033, steps)
    }),
    bytes("64 unions, last of 3, bytes", 1_161, |steps| {
        turns::calls(Head::Unions, Shape::last(3), 1_355, steps)
    }),
    bytes("64 unions, last of 15, bytes", 1_161, |steps| {
        turns::calls(Head::Unions, Shape::last(15), 451, steps)
    }),
    bytes("X by turns, 900 rows, bytes", 647, |steps| {
        rows::heads(Head::Turns(2), few_rows(900, 1, 1_135), steps)
    }),
    bytes("X by turns, 250 rows of 15, bytes", 769, |steps| {
        rows::heads(Head::Turns(2), few_rows(250, 15, 299), steps)
    }),
    bytes("X by 63 turns, 900 rows, bytes", 647, |steps| {
        rows::heads(Head::Turns(ACTIONS - 1), few_rows(900, 1, 1_135), steps)
    }),
    bytes("X by 63 turns, two rows, bytes", 1_160, |steps| {
        rows::heads(Head::Turns(ACTIONS - 1), few_rows(2, 1, 2_027), steps)
    }),
    bytes("64 unions of 900 rows, bytes", 647, |steps| {
        rows::heads(Head::Unions, LAST_ROW, steps)
    }),
    bytes("64 unions of variables bound last, bytes", 1_077, |steps| {
        views::heads_of_variables(Head::Unions, 1_790, 0, steps)
    }),
    bytes("64 names over such variables, bytes", 1_060, |steps| {
        views::heads_of_variables(Head::Names, 1_760, 0, steps)
    }),
    bytes(
        "a function fact, 64 unions of them, bytes",
        1_070,
        |steps| views::of_variables(1_786, 1, Some(Head::Unions), steps),
    ),
];
