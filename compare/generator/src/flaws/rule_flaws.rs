//! Flaws in rule steps.

use super::Flawed;
use crate::rules::{Plan, PlannedFact};
use crate::world::{Pair, World};

impl World {
    /// 27 to 32, 42, 45 to 47, 49 to 52.
    pub(super) fn wrong_rule_step(&mut self, number: u32) -> Flawed {
        let mut plan = self.plan();
        if self.random.once_in(2) {
            plan.facts.truncate(1);
        }
        if self.random.once_in(6) {
            let earlier = self.random.pick(&[28, 29, 30, 42, 45, 46, 47, 49, 50, 52]);
            self.insert_flawed_fact(&mut plan, earlier);
        }
        if number == 46 && self.counting && self.random.once_in(2) {
            self.bind_no_integer(&mut plan);
        }
        self.insert_flaw(&mut plan, number);
        let surplus = plan.facts.len().saturating_sub(job::limits::FACTS);
        plan.facts.drain(..surplus);
        if number != 32 {
            self.push_rule(&plan);
        }
        let mut claimed = self.random.pick(&plan.head_pairs);
        if number == 31 {
            claimed = self.pair_of_elsewhere(claimed, &plan);
        }
        if number == 27 {
            self.change_premise_count(&mut plan);
        }
        let proof = self.push_rule_step(&plan, claimed);
        self.flawed(proof, claimed)
    }

    /// Puts the flaw into a fact or, for 45, 46 and 51, into the head; others stand elsewhere.
    fn insert_flaw(&mut self, plan: &mut Plan, number: u32) {
        if self.conditions && self.random.once_in(6) {
            let other = self.random.pick(&[45, 46, 49, 51]);
            self.insert_flawed_condition(plan, other);
        }
        match number {
            45 | 46 | 49 | 51 if self.conditions && !self.random.once_in(3) => {
                self.insert_flawed_condition(plan, number)
            }
            28..=30 | 42 | 47 | 49 | 50 | 52 => self.insert_flawed_fact(plan, number),
            45 | 46 | 51 => match self.random.once_in(2) {
                true => self.insert_flawed_fact(plan, number),
                false => self.insert_flawed_action(plan, number),
            },
            _ => {}
        }
    }

    /// A pair that holds, but hardly by this head; or any other pair.
    fn pair_of_elsewhere(&mut self, pair: Pair, plan: &Plan) -> Pair {
        let bound: Vec<u32> = plan.working.values().copied().collect();
        let candidate = match self.random.below(6) {
            0 => self.random.pick_any(&self.global_pairs.clone()),
            1 => self.random.pick_any(&bound).map(|term| (term, term)),
            2 => {
                let term = self.any_literal_term();
                Some((term, term))
            }
            3 => {
                let proved = self.any_proved();
                Some((proved.left, proved.right))
            }
            _ => None,
        };
        match candidate {
            Some(candidate) => candidate,
            None => self.other_pair(pair),
        }
    }

    /// 44: a rule of a name that is there already.
    pub(super) fn rule_twice(&mut self) -> Flawed {
        let first = self.plan();
        self.push_rule(&first);
        let mut second = self.plan();
        second.name = match self.plans.first() {
            Some(plan) if self.random.once_in(2) => plan.name,
            _ => first.name,
        };
        self.push_rule(&second);
        let claimed = self.random.pick(&second.head_pairs);
        let proof = self.push_rule_step(&second, claimed);
        self.flawed(proof, claimed)
    }

    fn change_premise_count(&mut self, plan: &mut Plan) {
        let premise = self.any_proved().proof;
        let more = PlannedFact { fact: 0, premise };
        match self.random.below(40) {
            0 => plan.facts.resize(job::limits::PREMISES, more),
            1..=20 if !plan.facts.is_empty() => {
                plan.facts.pop();
            }
            _ => plan.facts.push(more),
        }
    }

    /// 45, 46 and 51 in a head.
    fn insert_flawed_action(&mut self, plan: &mut Plan, number: u32) {
        let names: Vec<u32> = plan.pairs.keys().copied().collect();
        let unbound = self.fresh_name(plan);
        self.note_integers(&plan.pairs);
        let expression = self.flawed_expression(number, &names, unbound);
        let action = self.action_with(expression);
        let place = self.random.below(plan.actions.len() + 1);
        plan.actions.truncate(job::limits::ACTIONS - 1);
        plan.actions.insert(place.min(plan.actions.len()), action);
    }

    /// Any action that evaluates this expression.
    pub fn action_with(&mut self, expression: u32) -> u32 {
        match self.random.below(4) {
            0 => {
                let place = self.random.below(6);
                let name = self.names.variable(place);
                self.tables.let_action(name, expression)
            }
            1 => {
                let other = self.literal_expression();
                match self.random.once_in(2) {
                    true => self.tables.union_action(expression, other),
                    false => self.tables.union_action(other, expression),
                }
            }
            2 => {
                let head = self.any_head();
                let call = self.expression(3, &[head, expression]);
                self.tables.set_action(call)
            }
            _ => self.tables.expression_action(expression),
        }
    }
}
