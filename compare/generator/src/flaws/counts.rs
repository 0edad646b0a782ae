//! Calls of kinds 4 to 8 that have no value.

use job::build;
use job::primitives::{COUNTING, DIFFERENCE, NEGATION, PRODUCT, SUM};

use crate::counting::argument_count;
use crate::counts;
use crate::rules::Plan;
use crate::world::World;

impl World {
    /// A call that has no value: past the range, of a wrong count or kind of arguments; sometimes
    /// inside another one. Constructor calls are among the arguments only where they may stand.
    pub fn count_without_value(&mut self, names: &[u32], with_calls: bool) -> u32 {
        let kind = self.random.pick(&COUNTING);
        let primitive = self.some_primitive(&[kind]);
        let call = match self.random.below(3) {
            0 => self.count_past_range(primitive, kind),
            1 => self.count_of_wrong_count(primitive, kind, names),
            _ => self.count_of_wrong_kind(primitive, kind, names, with_calls),
        };
        match self.random.once_in(3) {
            true => self.count_around(call, names),
            false => call,
        }
    }

    /// A result that does not fit, or a divisor 0: one step past, or by chance.
    fn count_past_range(&mut self, primitive: u32, kind: u32) -> u32 {
        let mut integers = match kind {
            SUM => self.random.pick(&[[i64::MAX, 1], [-1, i64::MIN]]).to_vec(),
            DIFFERENCE => self.random.pick(&[[i64::MIN, 1], [0, i64::MIN]]).to_vec(),
            PRODUCT => self.random.pick(&[[i64::MIN, -1], [-1, i64::MIN]]).to_vec(),
            NEGATION => vec![i64::MIN],
            _ => self.random.pick(&[[i64::MIN, -1], [7, 0]]).to_vec(),
        };
        for _ in 0..self.random.pick(&[0, 8]) {
            let others: Vec<i64> = integers.iter().map(|_| self.any_integer()).collect();
            let wide: Vec<i128> = others.iter().map(|&value| i128::from(value)).collect();
            if counts::result(kind, &wide).is_none() {
                integers = others;
            }
        }
        let mut words = vec![primitive];
        for value in integers {
            words.push(self.expression(0, &build::integer_words(value)));
        }
        self.expression(4, &words)
    }

    fn count_of_wrong_count(&mut self, primitive: u32, kind: u32, names: &[u32]) -> u32 {
        let count = match kind {
            NEGATION => self.random.pick(&[0, 2, 2, 3]),
            _ => self.random.pick(&[0, 1, 1, 3, 3, 16]),
        };
        let mut words = vec![primitive];
        for _ in 0..count {
            words.push(self.count_leaf(names));
        }
        self.expression(4, &words)
    }

    fn count_of_wrong_kind(
        &mut self,
        primitive: u32,
        kind: u32,
        names: &[u32],
        with_calls: bool,
    ) -> u32 {
        let count = argument_count(kind);
        let wrong = self.random.below(count);
        let mut words = vec![primitive];
        for place in 0..count {
            words.push(match place == wrong || self.random.once_in(8) {
                true => self.no_integer(names, with_calls),
                false => self.count_leaf(names),
            });
        }
        self.expression(4, &words)
    }

    /// A literal of another kind, a variable bound to another term, or a constructor call.
    fn no_integer(&mut self, names: &[u32], with_calls: bool) -> u32 {
        let others = self.names_of_integers(names, false);
        if let Some(name) = self.random.pick_any(&others)
            && self.random.once_in(2)
        {
            return self.expression(1, &[name]);
        }
        if with_calls && self.random.once_in(2) {
            let inner = self.count_leaf(names);
            return match self.random.once_in(2) {
                // its words look like an integer's
                true => self.expression(2, &[2, inner, inner]),
                false => {
                    let head = self.any_head();
                    self.expression(2, &[head, inner])
                }
            };
        }
        let number = self.random.below(3) as u32;
        let words = self
            .random
            .pick(&[[0, 0, 0], [1, 0, 0], [1, 1, 0], [3, number, 0]]);
        self.expression(0, &words)
    }

    /// Binds a name to a term variable, to an application whose words look like an integer's, or to
    /// any term.
    pub(super) fn bind_no_integer(&mut self, plan: &mut Plan) {
        let name = self.fresh_name(plan);
        let child = self.any_term();
        let term = match self.random.below(3) {
            0 => self.term(1, vec![2]),
            1 => self.application(2, &[child, child]),
            _ => child,
        };
        plan.bind(name, term);
    }

    /// A call of kinds 4 to 8 with this among its arguments.
    fn count_around(&mut self, inner: u32, names: &[u32]) -> u32 {
        let primitive = self.count_primitive();
        let count = argument_count(self.primitive_kind(primitive));
        let place = self.random.below(count);
        let mut words = vec![primitive];
        for other in 0..count {
            words.push(match other == place {
                true => inner,
                false => self.count_expression(names, 1),
            });
        }
        self.expression(4, &words)
    }

    /// A side condition with such a call: inside a container call, or opposite one.
    pub(super) fn condition_without_count(&mut self, plan: &mut Plan) -> (u32, u32) {
        let premise = self.unchecked_premise();
        let names: Vec<u32> = plan.pairs.keys().copied().collect();
        let call = self.count_without_value(&names, false);
        let primitive = self.some_primitive(&[3]);
        let (container, other) = match self.random.once_in(2) {
            true => {
                let leaf = self.leaf(&names);
                (self.expression(4, &[primitive, leaf, call]), leaf)
            }
            false => {
                let container = self.fact_call(primitive, &names);
                let mut bindings = self.globals.clone();
                bindings.extend(&plan.pairs);
                self.evaluate(container, &bindings, &mut Vec::new());
                (container, call)
            }
        };
        (self.either_way(other, container), premise)
    }
}
