//! Heads that evaluate deep calls over X 64 times, over a store that other terms fill.

use generator::extremes::{F, X};
use job::limits::{ACTIONS, CELLS};
use job::primitives::NEGATION;
use job::{Table, Tables};

use super::ground::{Head, ONE, Shape, climb_on_one, literal, stacked};

/// Calls beside the literal, X and one more expression, so that all expressions there may be are used.
pub const DEEP: usize = CELLS as usize - 3;

const OTHER: u32 = 12;
/// Globals that fill the largest store, and the calls of each, beside two towers of the calls that are left.
const GLOBALS: usize = 254;
const FILLING: usize = 227;

/// Terms of a name that fill the store, of so many globals with so many calls each.
#[derive(Clone, Copy)]
pub struct Filling {
    name: u32,
    globals: usize,
    levels: usize,
}

impl Filling {
    pub const NOTHING: Filling = Filling::alike(0, 0);
    /// Alike but for the name.
    pub const OTHER_NAME: Filling = Filling {
        name: OTHER,
        ..Filling::OTHER_CHILD
    };
    /// Alike but for the call below.
    pub const OTHER_CHILD: Filling = Filling::alike(GLOBALS, FILLING);

    pub const fn alike(globals: usize, levels: usize) -> Filling {
        Filling {
            name: F,
            globals,
            levels,
        }
    }

    /// Adds them by globals that bind X anew, starting with 2; the last one binds it to 1.
    fn add(self, tables: &mut Tables, shape: Shape, x: u32) {
        let two = tables.integer(2);
        let top = stacked(x, self.levels, shape, |arguments| {
            tables.constructor(self.name, arguments)
        });
        tables.let_action(X, two);
        for _ in 0..self.globals {
            tables.let_action(X, top);
        }
        tables.let_action(X, ONE);
        tables.globals = tables.count(Table::Actions);
    }
}

/// A head over X evaluates so many calls one over another again and again.
pub fn calls(head: Head, shape: Shape, levels: usize, steps: usize) -> Tables {
    calls_among(Filling::NOTHING, head, shape, levels, steps)
}

/// The same among terms that fill the store.
pub fn calls_among(
    filling: Filling,
    head: Head,
    shape: Shape,
    levels: usize,
    steps: usize,
) -> Tables {
    let mut tables = literal();
    let x = tables.variable(X);
    filling.add(&mut tables, shape, x);
    let top = stacked(x, levels, shape, |arguments| {
        tables.constructor(F, arguments)
    });
    let actions = head.actions(&mut tables, top);
    climb_on_one(&mut tables, &actions, &[], steps);
    tables
}

/// X by turns over two towers of as many calls as there may be beside the filling.
pub fn most_calls(filling: Filling, shape: Shape, steps: usize) -> Tables {
    let levels = DEEP - filling.levels;
    calls_among(filling, Head::Turns(2), shape, levels, steps)
}

/// X is bound to 1, then by every let to calls of a primitive over it: negations, or the operation of that kind with
/// -1. Of an odd number of calls the values are 1 and -1 by turns.
pub fn signs(kind: u32, levels: usize, steps: usize) -> Tables {
    let mut tables = literal();
    let x = tables.variable(X);
    let minus = tables.integer(-1);
    let primitive = tables.primitive(kind, F);
    let top = stacked(x, levels, Shape::last(1), |below| match kind {
        NEGATION => tables.primitive_call(primitive, below),
        _ => tables.primitive_call(primitive, &[below[0], minus]),
    });
    let actions = Head::Turns(ACTIONS - 1).actions(&mut tables, top);
    climb_on_one(&mut tables, &actions, &[], steps);
    tables
}
