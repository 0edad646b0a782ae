//! Hand-made jobs with container conditions, and what each is answered in mode 0 and in strict mode.
//! The oracle's tests hold the Rust to them, those of `at_scale` the library.
#![allow(dead_code)]

mod bindings;
mod heights;
mod numbers;
mod order;

use job::primitives::SUM;
use job::{Table, Tables};

pub use bindings::{binds_nothing, bound, shared_facts};
pub use heights::{
    heights_among_facts, heights_checked_before, heights_nested, heights_of_conditions,
    heights_of_ordinary_facts, heights_of_other_steps, heights_shared, heights_unchecked,
};
pub use numbers::{any_value, number_45, number_46, number_51, number_53, over_sums};
pub use order::{full_tables, left_alone, normal_forms, order, unchecked_premises};

/// Gives the names of all lists of jobs to a macro.
macro_rules! each_list {
    ($then:ident) => {
        $then! {
            number_45 number_46 number_51 number_53 over_sums any_value bound binds_nothing shared_facts
            unchecked_premises order normal_forms left_alone full_tables heights_of_conditions heights_nested
            heights_shared heights_among_facts heights_checked_before heights_unchecked
            heights_of_ordinary_facts heights_of_other_steps
        }
    };
}

/// One test for each list, which calls `hold` with it.
#[allow(unused_macros)]
macro_rules! hold_each_list {
    ($($list:ident)+) => {
        $(
            #[test]
            fn $list() {
                hold(strict_jobs::$list());
            }
        )+
    };
}

/// The jobs of all lists.
#[allow(unused_macros)]
macro_rules! jobs_of_each_list {
    ($($list:ident)+) => {
        [$(strict_jobs::$list()),+].concat()
    };
}

/// Names.
const F: u32 = 5;
const RULE: u32 = 6;
const X: u32 = 7;
const Y: u32 = 8;
const C: u32 = 9;
const D: u32 = 10;
const NO_VALIDATOR: u32 = 11;
const S: u32 = 12;
const OTHER_RULE: u32 = 13;
const Z: u32 = 14;
const PLAIN: u32 = 15;

/// Terms and literals by their numbers in every job here.
const ONE: u32 = 0;
const TWO: u32 = 1;
/// A literal that is no term of the job.
const THREE: u32 = 2;
/// Variables by the numbers of their expressions.
const VARIABLE_X: u32 = 3;
const VARIABLE_Y: u32 = 4;

/// The literal 3 as a term that is added.
const ADDED_THREE: (u32, &[u32]) = (0, &[2, 3, 0]);

/// An answer and the terms that the store then holds beyond the job's.
#[derive(Clone, PartialEq, Debug)]
pub struct Expected {
    pub answer: [u32; 8],
    pub added: Vec<(u32, Vec<u32>)>,
}

/// A job whose last proof is asked for.
#[derive(Clone)]
pub struct HandMade {
    pub name: &'static str,
    pub tables: Tables,
    /// The cells and the pool words that are lent.
    pub room: (usize, usize),
    pub plain: Expected,
    pub strict: Expected,
}

impl HandMade {
    /// A job that is accepted in both modes, by a step with conditions alone, and adds nothing.
    fn new(name: &'static str, tables: Tables) -> HandMade {
        let accepted = Expected {
            answer: [0; 8],
            added: Vec::new(),
        };
        HandMade {
            name,
            tables,
            room: (200, 2_000),
            plain: accepted.clone(),
            strict: accepted,
        }
        .both(0, &[ONE, ONE, 1], &[])
    }

    fn expected(&self, number: u32, fields: &[u32], added: &[(u32, &[u32])]) -> Expected {
        let mut answer = [0; 8];
        answer[0] = number;
        answer[1] = self.tables.count(Table::Terms) + added.len() as u32;
        answer[2..2 + fields.len()].copy_from_slice(fields);
        let added = added.iter().map(|(kind, words)| (*kind, words.to_vec()));
        Expected {
            answer,
            added: added.collect(),
        }
    }

    /// What strict mode answers.
    fn strict(self, number: u32, fields: &[u32], added: &[(u32, &[u32])]) -> HandMade {
        let strict = self.expected(number, fields, added);
        HandMade { strict, ..self }
    }

    /// What mode 0 answers.
    fn plain(self, number: u32, fields: &[u32], added: &[(u32, &[u32])]) -> HandMade {
        let plain = self.expected(number, fields, added);
        HandMade { plain, ..self }
    }

    /// What both answer.
    fn both(self, number: u32, fields: &[u32], added: &[(u32, &[u32])]) -> HandMade {
        self.plain(number, fields, added)
            .strict(number, fields, added)
    }

    fn in_room(self, cells: usize, pool: usize) -> HandMade {
        let room = (cells, pool);
        HandMade { room, ..self }
    }
}

/// Primitives by their numbers.
const CONTAINER_C: u32 = 0;
const CONTAINER_D: u32 = 1;
const WITHOUT_VALIDATOR: u32 = 2;
const SUM_OF_TWO: u32 = 3;
const LOOKED_UP: u32 = 4;

/// 1 and 2; containers c(1) = 2 and d(2) = 1, one without validator, a sum, and p(1) = 1.
fn start() -> Tables {
    let mut tables = Tables::default();
    for value in [1, 2] {
        tables.term_integer(value);
        tables.integer(value);
    }
    tables.integer(3);
    tables.variable(X);
    tables.variable(Y);
    for (kind, name) in [(3, C), (3, D), (2, NO_VALIDATOR), (SUM, S), (1, PLAIN)] {
        tables.primitive(kind, name);
    }
    tables.row(CONTAINER_C, TWO, &[ONE]);
    tables.row(CONTAINER_D, ONE, &[TWO]);
    tables.row(LOOKED_UP, ONE, &[ONE]);
    tables
}

/// A bare condition of this primitive on these expressions.
fn condition(tables: &mut Tables, primitive: u32, arguments: &[u32]) -> u32 {
    let call = tables.primitive_call(primitive, arguments);
    tables.bare(call)
}

/// A rule with these facts and the head 1, and a step by it with a fiat opposite each fact.
fn step(mut tables: Tables, facts: &[u32], pairs: &[(u32, u32)]) -> Tables {
    let head = tables.expression_action(ONE);
    tables.rule(RULE, facts, &[head]);
    let premise = tables.fiat((ONE, ONE));
    tables.rule_step((ONE, ONE), RULE, &vec![premise; facts.len()], pairs);
    tables
}

/// A step by a rule whose only fact is this one; x is 1.
fn one_fact(name: &'static str, make: impl Fn(&mut Tables) -> u32) -> HandMade {
    let mut tables = start();
    let fact = make(&mut tables);
    HandMade::new(name, step(tables, &[fact], &[(X, ONE)]))
}

/// The same, the fact a condition of this primitive on these expressions.
fn one_condition(name: &'static str, primitive: u32, arguments: &[u32]) -> HandMade {
    one_fact(name, |tables| condition(tables, primitive, arguments))
}
