//! Deep calls of a primitive, each looked up among many rows.

use std::iter;

use generator::extremes::{X, Y};
use job::Tables;
use job::limits::FACTS;
use tools::colliding;

use super::ground::{Head, ONE, Shape, climb, climb_by_conditions, climb_on_one, literal, stacked};

const BOX: u32 = 11;
/// The first of the names that conditions bind.
const BOUND: u32 = 1_000;
/// The validated primitives: a plain one, and one that gives containers.
pub const PLAIN_ROWS: u32 = 1;
pub const BOXES: u32 = 3;

/// The most conditions that a rule may have beside a fact.
pub const CONDITIONS: usize = FACTS - 1;

/// What the rows give.
#[derive(Clone, Copy)]
pub enum Giving {
    /// Each gives the next one's argument: calls one over another take them in turn.
    Next,
    /// All give 1, of which the row stands last: calls over 1 take it alone.
    One,
}

/// Calls of a primitive of this kind, so many one over another, and so many rows, alike but for the argument that is
/// the call below.
#[derive(Clone, Copy)]
pub struct Rows {
    pub kind: u32,
    pub shape: Shape,
    pub levels: usize,
    pub rows: usize,
    pub giving: Giving,
}

impl Rows {
    /// Adds the rows, and the calls over an expression of value 1; the last call.
    pub fn calls(self, tables: &mut Tables, bottom: u32) -> u32 {
        let Rows { shape, rows, .. } = self;
        let primitive = tables.primitive(self.kind, BOX);
        let others = (1..rows as u32).map(|name| tables.term_variable(name));
        let terms: Vec<u32> = iter::once(ONE).chain(others).collect();
        for row in (1..rows).chain([0]) {
            let result = match self.giving {
                Giving::Next => terms[(row + 1) % rows],
                Giving::One => ONE,
            };
            tables.row(primitive, result, &shape.arguments(terms[row]));
        }
        stacked(bottom, self.levels, shape, |arguments| {
            tables.primitive_call(primitive, arguments)
        })
    }
}

/// Such calls over X, which a global binds to 1.
fn calls_over_x(rows: Rows) -> (Tables, u32) {
    let mut tables = literal();
    let x = tables.variable(X);
    tables.let_action(X, ONE);
    tables.globals = 1;
    let top = rows.calls(&mut tables, x);
    (tables, top)
}

/// A head over X evaluates the calls again and again.
pub fn heads(head: Head, rows: Rows, steps: usize) -> Tables {
    let (mut tables, top) = calls_over_x(rows);
    let actions = head.actions(&mut tables, top);
    climb_on_one(&mut tables, &actions, &[], steps);
    tables
}

/// A head over X, behind 15 conditions that bind a name each to the calls.
pub fn bindings(head: Head, rows: Rows, steps: usize) -> Tables {
    let (mut tables, top) = calls_over_x(rows);
    let mut facts = vec![tables.bare(ONE)];
    for place in 0..CONDITIONS as u32 {
        let name = tables.variable(BOUND + place);
        facts.push(tables.equality(name, top));
    }
    let actions = head.actions(&mut tables, top);
    climb(&mut tables, (ONE, ONE), &facts, &actions, &[], steps);
    tables
}

/// So many conditions, each of two towers of such calls.
pub fn conditions(rows: Rows, count: usize, steps: usize) -> Tables {
    let mut tables = literal();
    let top = rows.calls(&mut tables, ONE);
    let condition = tables.equality(top, top);
    climb_by_conditions(&mut tables, condition, count, steps);
    tables
}

/// So many conditions, each such a tower alone.
pub fn bare_conditions(rows: Rows, count: usize, steps: usize) -> Tables {
    let mut tables = literal();
    let top = rows.calls(&mut tables, ONE);
    let condition = tables.bare(top);
    climb_by_conditions(&mut tables, condition, count, steps);
    tables
}

/// Rows of one slot where the word is 0, alike but for the last two of so many arguments, which are among so many
/// terms; each head evaluates calls one over another, all of the row that stands last, so many times.
pub fn one_slot(
    shape: Shape,
    rows: usize,
    terms: u32,
    levels: usize,
    times: usize,
    steps: usize,
) -> Tables {
    let mut tables = literal();
    for name in 1..terms {
        tables.term_variable(name);
    }
    let primitive = tables.primitive(BOXES, BOX);
    let before = vec![ONE; shape.width - 2];
    let ends = colliding::row_ends(&before, rows, terms);
    for ends in &ends {
        tables.row(primitive, ends[1], &[&before[..], ends].concat());
    }
    let x = tables.variable(X);
    let y = tables.variable(Y);
    let top = stacked(y, levels, shape, |arguments| {
        let call = [&before[..], &[x], &arguments[shape.width - 1..]].concat();
        tables.primitive_call(primitive, &call)
    });
    let head = vec![tables.expression_action(top); times];
    let [first, last] = ends[rows - 1];
    climb_on_one(&mut tables, &head, &[(X, first), (Y, last)], steps);
    tables
}
