//! Calls of primitives that compute with integers, in a world that has them.

use job::primitives::{self, COUNTING, NEGATION};
use job::{Table, build};

use crate::counts;
use crate::names::{NEW, OLD};
use crate::world::{Bindings, World};

impl World {
    /// Some primitives of kinds 4 to 8, one at least; seldom two of a kind.
    pub fn counting_primitives(&mut self) {
        for _ in 0..self.random.pick(&[1, 1, 1, 2]) {
            for kind in COUNTING {
                if !self.random.once_in(4) {
                    self.new_primitive(kind);
                }
            }
        }
        self.some_primitive(&COUNTING);
    }

    pub fn primitive_kind(&self, primitive: u32) -> u32 {
        self.tables.of(Table::Primitives)[primitive as usize].kind
    }

    /// A primitive of any kind that the world has; made if there is none.
    pub fn primitive_of_any_kind(&mut self) -> u32 {
        match self.counting {
            true => self.some_primitive(&[0, 1, 2, 3, 4, 5, 6, 7, 8]),
            false => self.some_primitive(&[0, 1, 2, 3]),
        }
    }

    /// The integer that a term is.
    pub fn integer(&self, term: u32) -> Option<i128> {
        let cell = &self.tables.of(Table::Terms)[term as usize];
        match cell.kind {
            0 => counts::integer(&cell.words),
            _ => None,
        }
    }

    pub fn integer_term(&mut self, value: i128) -> u32 {
        self.term(0, build::integer_words(value as i64).to_vec())
    }

    /// Small, at an extreme, or any.
    pub fn any_integer(&mut self) -> i64 {
        match self.random.below(6) {
            0 | 1 => self.random.pick(&counts::EXTREMES),
            2 => self.random.word() as i64,
            _ => self.random.below(19) as i64 - 9,
        }
    }

    /// What a primitive of kinds 4 to 8 gives for these terms; the result enters the job.
    pub fn count(&mut self, kind: u32, arguments: &[u32]) -> Option<u32> {
        let integers: Option<Vec<i128>> = arguments
            .iter()
            .map(|&argument| self.integer(argument))
            .collect();
        let result = counts::result(kind, &integers?)?;
        Some(self.integer_term(result))
    }

    /// Notes which names are bound to integers, so that calls are made of them.
    pub fn note_integers(&mut self, bindings: &Bindings) {
        if self.counting {
            self.integer_names = bindings
                .iter()
                .filter(|&(_, &term)| self.integer(term).is_some())
                .map(|(&name, _)| name)
                .collect();
        }
    }

    /// Those of the names that were bound to integers, or those that were not.
    pub fn names_of_integers(&self, names: &[u32], are: bool) -> Vec<u32> {
        names
            .iter()
            .copied()
            .filter(|name| self.integer_names.contains(name) == are)
            .collect()
    }

    /// An integer, or a variable bound to one.
    pub fn count_leaf(&mut self, names: &[u32]) -> u32 {
        let names = self.names_of_integers(names, true);
        match self.random.pick_any(&names) {
            Some(name) if self.random.once_in(2) => self.expression(1, &[name]),
            _ => {
                let words = build::integer_words(self.any_integer());
                self.expression(0, &words)
            }
        }
    }

    /// A primitive of kinds 4 to 8; a counting world has one.
    pub fn count_primitive(&mut self) -> u32 {
        self.some_primitive(&COUNTING)
    }

    /// Calls of kinds 4 to 8 in each other, seldom with a call that looks a row up among them.
    pub fn count_expression(&mut self, names: &[u32], depth: usize) -> u32 {
        if depth == 0 || self.random.once_in(4) {
            return self.count_leaf(names);
        }
        let rows = self.primitives(&[1, 3]);
        match self.random.pick_any(&rows) {
            Some(primitive) if self.random.once_in(12) => self.fact_call(primitive, names),
            _ => self.count_call(names, depth),
        }
    }

    /// A call of one of these kinds with as many arguments as it takes.
    pub fn count_call(&mut self, names: &[u32], depth: usize) -> u32 {
        let primitive = self.count_primitive();
        let mut words = vec![primitive];
        for _ in 0..argument_count(self.primitive_kind(primitive)) {
            words.push(self.count_expression(names, depth.saturating_sub(1)));
        }
        self.expression(4, &words)
    }

    /// A call of one of these kinds that has a value, and the value.
    pub fn count_with_value(&mut self, names: &[u32], bindings: &Bindings) -> Option<(u32, u32)> {
        for _ in 0..4 {
            let call = self.count_call(names, 2);
            if let Some(value) = self.evaluate(call, bindings, &mut Vec::new()) {
                return Some((call, value));
            }
        }
        None
    }

    /// A merge that computes: of `old` and `new`, or of calls on them.
    pub fn count_merge(&mut self) -> u32 {
        self.integer_names = vec![OLD, NEW];
        if self.random.once_in(2) {
            return self.count_call(&[OLD, NEW], 2);
        }
        let primitive = self.count_primitive();
        let mut views = vec![self.expression(1, &[OLD]), self.expression(1, &[NEW])];
        if self.random.once_in(3) {
            views.reverse();
        }
        views.truncate(argument_count(self.primitive_kind(primitive)));
        self.expression(4, &[&[primitive], &views[..]].concat())
    }

    /// The views whose value is an integer, mostly; all where there are none.
    pub fn views_of_integers(&mut self, terms: Vec<u32>) -> Vec<u32> {
        let of_integers: Vec<u32> = terms
            .iter()
            .copied()
            .filter(|&term| {
                self.as_application(term)
                    .and_then(|(_, children)| children.last().copied())
                    .is_some_and(|value| self.integer(value).is_some())
            })
            .collect();
        match of_integers.is_empty() || self.random.once_in(4) {
            true => terms,
            false => of_integers,
        }
    }

    /// Another integer that a mistake may give: one more or less, another sign, another high word.
    pub fn near_integer(&mut self, term: u32) -> Option<u32> {
        if !self.counting || self.random.once_in(2) {
            return None;
        }
        let value = self.integer(term)? as i64;
        let near = self.random.pick(&[
            value.wrapping_add(1),
            value.wrapping_sub(1),
            value.wrapping_neg(),
            value.wrapping_add(1 << 32),
            value.wrapping_sub(1 << 32),
            value ^ i64::MIN,
        ]);
        (near != value).then(|| self.integer_term(i128::from(near)))
    }
}

/// How many arguments a primitive of kinds 4 to 8 takes.
pub fn argument_count(kind: u32) -> usize {
    debug_assert!(primitives::counts(kind));
    if kind == NEGATION { 1 } else { 2 }
}
