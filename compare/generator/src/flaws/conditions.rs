//! Bare container conditions that strict mode refuses.

use super::Flawed;
use crate::rules::{Plan, PlannedFact};
use crate::world::World;

impl World {
    /// Puts one aimed at 45, 46, 49 or 51 somewhere among the facts.
    pub(super) fn insert_flawed_condition(&mut self, plan: &mut Plan, number: u32) {
        self.note_integers(&plan.working);
        if number == 45 && self.random.once_in(2) {
            return self.insert_early_condition(plan);
        }
        let flaw = self.condition_flaw_of(plan, number);
        let call = self.condition_around(flaw, plan);
        let place = self.random.below(plan.facts.len() + 1);
        self.insert_condition(plan, place, call);
    }

    /// An unbound variable, a call without value, of a primitive without validator, or of a constructor.
    fn condition_flaw_of(&mut self, plan: &Plan, number: u32) -> u32 {
        let names = plan.names();
        match number {
            45 => {
                let name = self.fresh_name(plan);
                self.expression(1, &[name])
            }
            46 if self.counting && self.random.once_in(2) => {
                self.count_without_value(&names, false)
            }
            46 => self.call_without_row(&names),
            51 => {
                let primitive = self.some_primitive(&[0, 2, 2]);
                self.fact_call(primitive, &names)
            }
            _ => {
                let kind = self.random.pick(&[2, 3]);
                let head = self.any_head();
                let leaf = self.leaf(&names);
                self.expression(kind, &[head, leaf])
            }
        }
    }

    /// A container call with this among its arguments, most before it with a value; sometimes this alone.
    fn condition_around(&mut self, flaw: u32, plan: &Plan) -> u32 {
        if self.is_container_call(flaw) && self.random.once_in(2) {
            return flaw;
        }
        let names = plan.names();
        let mut words = vec![self.some_primitive(&[3])];
        for _ in 0..self.random.below(3) {
            let argument = self.primitive_argument(&names, 1);
            if !self.random.once_in(4) {
                self.evaluate(argument, &plan.working, &mut Vec::new());
            }
            words.push(argument);
        }
        words.push(flaw);
        for _ in 0..self.random.below(2) {
            words.push(self.primitive_argument(&names, 1));
        }
        self.expression(4, &words)
    }

    fn insert_condition(&mut self, plan: &mut Plan, place: usize, call: u32) {
        let fact = self.tables.bare(call);
        let premise = self.unchecked_premise();
        plan.facts.insert(place, PlannedFact { fact, premise });
    }

    /// A step that holds joined with one by the same rule, in which a name is bound to a literal that has
    /// no rows; in either order. `None` where no rule has names.
    pub(super) fn instance_without_row(&mut self) -> Option<Flawed> {
        let plans = self.plans.iter().filter(|plan| !plan.pairs.is_empty());
        let known: Vec<Plan> = plans.cloned().collect();
        let place = self.random.below(known.len().max(1));
        let mut plan = known.get(place)?.clone();
        let claimed = self.random.pick(&plan.head_pairs);
        let good = self.push_rule_step(&plan, claimed);
        let names: Vec<u32> = plan.pairs.keys().copied().collect();
        let words = [2, self.random.word() as u32, self.random.word() as u32];
        let literal = self.term(0, words.to_vec());
        plan.pairs.insert(self.random.pick(&names), literal);
        let other = self.push_rule_step(&plan, claimed);
        let order = self
            .random
            .pick(&[(good, other), (good, other), (other, good)]);
        let proof = self.tables.transitivity(claimed, order.0, order.1);
        Some(Flawed { proof, claimed })
    }

    /// `[d(y), y = c(x)]`: it stands before the condition that binds its variable.
    fn insert_early_condition(&mut self, plan: &mut Plan) {
        let before = plan.names();
        let Some(fact) = self.binding_condition(plan) else {
            return;
        };
        let mut names = plan.names();
        names.retain(|name| !before.contains(name));
        let variable = self.expression(1, &names);
        let call = self.condition_around(variable, plan);
        let place = self.random.below(plan.facts.len() + 1);
        self.insert_condition(plan, place, call);
        let premise = self.unchecked_premise();
        self.push_fact(plan, fact, premise);
    }
}
