//! Function facts of 15 deep arguments, each of which is evaluated by itself, and heads of the same expressions.

use generator::extremes::{F, X};
use job::build::gathered;
use job::limits::{GLOBALS, OPERANDS};
use job::{Table, Tables};

use super::ground::{Head, ONE, Shape, climb, climb_on_one, literal, stacked};
use super::rows::Rows;

const VIEW: u32 = 10;
const ARGUMENTS: usize = OPERANDS - 1;
/// The first of the names that the globals bind.
const GLOBAL: u32 = 1_000;

/// An expression and the term that is its value.
#[derive(Clone, Copy)]
struct Valued {
    expression: u32,
    term: u32,
}

/// Calls one over another.
fn tower(tables: &mut Tables, shape: Shape, levels: usize) -> Valued {
    let term = stacked(ONE, levels, shape, |children| {
        tables.term_application(F, children)
    });
    let expression = stacked(ONE, levels, shape, |arguments| {
        tables.constructor(F, arguments)
    });
    Valued { expression, term }
}

/// Calls that are looked up among rows, whose last one gives 1.
fn rows(tables: &mut Tables, rows: Rows) -> Valued {
    let expression = rows.calls(tables, ONE);
    Valued {
        expression,
        term: ONE,
    }
}

/// The number of an application, which is added where there is none.
fn application(tables: &mut Tables, children: &[u32]) -> u32 {
    let words = [&[F], children].concat();
    let mut terms = tables.of(Table::Terms).iter();
    match terms.position(|cell| cell.kind == 2 && cell.words == words) {
        Some(number) => number as u32,
        None => tables.term_application(F, children),
    }
}

/// Calls over so many variables, each of the name that the globals bind first, all others before it.
fn variables(tables: &mut Tables, count: usize) -> Valued {
    for place in 0..GLOBALS - 2 {
        tables.let_action(GLOBAL + place, ONE);
    }
    let leaves = (0..count).map(|_| tables.variable(GLOBAL)).collect();
    let expression = gathered(leaves, |arguments| tables.constructor(F, arguments));
    let term = gathered(vec![ONE; count], |children| application(tables, children));
    Valued { expression, term }
}

/// Steps by a rule with so many function facts of 15 such arguments; each claims the view, whose call is all that the
/// head evaluates, or that one set does.
fn climb_on_views(
    tables: &mut Tables,
    Valued { expression, term }: Valued,
    facts: usize,
    head: Option<Head>,
    steps: usize,
) {
    let x = tables.variable(X);
    let call = tables.custom(VIEW, &[expression; ARGUMENTS]);
    let mut children = [term; OPERANDS];
    children[ARGUMENTS] = ONE;
    let view = tables.term_application(VIEW, &children);
    let mut arguments = [expression; OPERANDS];
    arguments[ARGUMENTS] = ONE;
    let view_call = tables.custom(VIEW, &arguments);
    let set = tables.set_action(view_call);
    tables.let_action(X, ONE);
    tables.globals = tables.count(Table::Actions);
    let fact = tables.equality(call, x);
    let actions = match head {
        Some(head) => head.actions(tables, view_call),
        None => vec![set],
    };
    let facts = vec![fact; facts];
    climb(tables, (view, view), &facts, &actions, &[], steps);
}

/// Such steps over calls of this shape.
pub fn of_calls(
    shape: Shape,
    levels: usize,
    facts: usize,
    head: Option<Head>,
    steps: usize,
) -> Tables {
    let mut tables = literal();
    let valued = tower(&mut tables, shape, levels);
    climb_on_views(&mut tables, valued, facts, head, steps);
    tables
}

/// Such steps over calls that are looked up among rows.
pub fn of_rows(listed: Rows, facts: usize, head: Option<Head>, steps: usize) -> Tables {
    let mut tables = literal();
    let valued = rows(&mut tables, listed);
    climb_on_views(&mut tables, valued, facts, head, steps);
    tables
}

/// Such steps over so many variables.
pub fn of_variables(count: usize, facts: usize, head: Option<Head>, steps: usize) -> Tables {
    let mut tables = literal();
    let valued = variables(&mut tables, count);
    climb_on_views(&mut tables, valued, facts, head, steps);
    tables
}

/// A head over so many variables, each looked for among so many pairs first.
pub fn heads_of_variables(head: Head, count: usize, pairs: u32, steps: usize) -> Tables {
    let mut tables = literal();
    let Valued { expression, .. } = variables(&mut tables, count);
    tables.globals = tables.count(Table::Actions);
    let actions = head.actions(&mut tables, expression);
    let pairs: Vec<(u32, u32)> = (0..pairs).map(|place| (X + place, ONE)).collect();
    climb_on_one(&mut tables, &actions, &pairs, steps);
    tables
}
