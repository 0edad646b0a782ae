//! Steps that are to be refused, each aimed at one number.

mod bury;
mod conditions;
mod counts;
mod fact_flaws;
mod merges;
mod rule_flaws;
mod simple;

use crate::world::{Pair, World};

/// A proof with a flaw, and what it claims.
#[derive(Clone, Copy, Debug)]
pub struct Flawed {
    pub proof: u32,
    pub claimed: Pair,
}

/// The numbers that a step can be aimed at.
const AIMED: [u32; 32] = [
    20, 21, 22, 23, 24, 25, 26, 27, 28, 29, 30, 31, 32, 33, 34, 35, 36, 37, 38, 39, 40, 41, 42, 43,
    44, 45, 46, 47, 49, 50, 51, 52,
];

/// The numbers that a global action can be aimed at.
pub const AIMED_IN_GLOBALS: [u32; 3] = [45, 46, 51];

/// The numbers that a step of a counting world is aimed at more often.
const AIMED_BY_COUNTS: [u32; 6] = [29, 30, 42, 46, 46, 46];

/// The numbers that a step of a world with conditions is aimed at more often.
const AIMED_BY_CONDITIONS: [u32; 8] = [45, 45, 45, 46, 46, 46, 49, 51];

impl World {
    /// A number that a step can be aimed at.
    pub fn any_aim(&mut self) -> u32 {
        if self.conditions && self.random.once_in(2) {
            return self.random.pick(&AIMED_BY_CONDITIONS);
        }
        match self.counting && self.random.once_in(4) {
            true => self.random.pick(&AIMED_BY_COUNTS),
            false => self.random.pick(&AIMED),
        }
    }

    /// Appends a step that is to be refused with this number.
    pub fn flawed_step(&mut self, number: u32) -> Flawed {
        if self.conditions
            && number == 46
            && self.random.once_in(4)
            && let Some(flawed) = self.instance_without_row()
        {
            return flawed;
        }
        match number {
            20 => self.wrong_claim(),
            21 => self.wrong_middle(),
            22..=26 => self.wrong_congruence(number),
            33 => self.wrong_fiat(),
            34..=39 | 43 => self.wrong_merge(number),
            40 => self.wrong_normalisation(),
            41 => self.stray_eval(),
            44 => self.rule_twice(),
            45 | 46 | 51 if self.random.once_in(4) => self.flawed_merge_expression(number),
            _ => self.wrong_rule_step(number),
        }
    }

    fn flawed(&self, proof: u32, claimed: Pair) -> Flawed {
        Flawed { proof, claimed }
    }

    /// A pair of which at least one side differs.
    fn other_pair(&mut self, pair: Pair) -> Pair {
        match self.random.below(4) {
            0 => (self.other_term(pair.0), pair.1),
            1 => (pair.0, self.other_term(pair.1)),
            2 if pair.0 != pair.1 => (pair.1, pair.0),
            _ => (self.other_term(pair.0), self.other_term(pair.1)),
        }
    }

    /// An expression without value in a head, global, merge or side condition.
    pub fn flawed_expression(&mut self, number: u32, names: &[u32], unbound: u32) -> u32 {
        let flaw = match number {
            45 => self.expression(1, &[unbound]),
            46 if self.counting && !self.random.once_in(3) => self.count_without_value(names, true),
            46 => self.call_without_row(names),
            _ => {
                let primitive = self.some_primitive(&[0, 2]);
                self.fact_call(primitive, names)
            }
        };
        if self.random.once_in(2) {
            return flaw;
        }
        let head = self.any_head();
        let kind = self.random.pick(&[2, 3]);
        let before = self.head_expression(names, 1);
        let after = self.head_expression(names, 1);
        self.expression(kind, &[head, before, flaw, after])
    }

    /// A call of a primitive with validator for which no row will be there.
    pub fn call_without_row(&mut self, names: &[u32]) -> u32 {
        let primitive = self.some_primitive(&[1, 3]);
        let argument = self.word_literal();
        let mut words = vec![primitive, argument];
        if self.random.once_in(2) {
            words.push(self.leaf(names));
        }
        self.expression(4, &words)
    }

    /// A literal that occurs nowhere else.
    fn word_literal(&mut self) -> u32 {
        let words = [2, self.random.word() as u32, self.random.word() as u32];
        self.expression(0, &words)
    }
}
