//! Another instance of a rule that is there: other terms for its variables.

use job::{Table, primitives};

use crate::rules::{Plan, PlannedFact};
use crate::world::{Bindings, Pair, World};

impl World {
    /// The same rule with other terms, its premises assumed; `None` where that has no value.
    pub fn other_instance(&mut self, known: &Plan) -> Option<Plan> {
        let mut pairs = Bindings::new();
        for (&name, &term) in &known.pairs {
            pairs.insert(name, self.term_in_place_of(term));
        }
        let mut working = self.globals.clone();
        working.extend(&pairs);
        let mut plan = Plan {
            pairs,
            working,
            facts: Vec::new(),
            head_pairs: Vec::new(),
            ..known.clone()
        };
        for planned in &known.facts {
            let premise = self.instance_premise(planned.fact, &mut plan.working)?;
            plan.facts.push(PlannedFact {
                fact: planned.fact,
                premise,
            });
        }
        plan.head_pairs = self.instance_head(&plan)?;
        (!plan.head_pairs.is_empty()).then_some(plan)
    }

    /// Any term; in a counting world an integer for an integer.
    fn term_in_place_of(&mut self, term: u32) -> u32 {
        match self.counting && self.integer(term).is_some() {
            true => {
                let value = self.any_integer();
                self.integer_term(i128::from(value))
            }
            false => self.any_term(),
        }
    }

    /// A proof that fits the fact under these bindings.
    fn instance_premise(&mut self, fact: u32, working: &mut Bindings) -> Option<u32> {
        let cell = self.tables.of(Table::Facts)[fact as usize].clone();
        let (left, right) = match cell.words[..] {
            [left, right] => (left, right),
            _ => return self.bare_premise(cell.words[0], working),
        };
        if self.is_container_call(left) || self.is_container_call(right) {
            self.instance_condition(left, right, working)?;
            return Some(self.unchecked_premise());
        }
        let no_pairs = &mut Vec::new();
        let value = self.evaluate(right, working, no_pairs)?;
        if self.is_function_fact(left, right) {
            let call = self.expression_words(left);
            let mut children = Vec::new();
            for &argument in &call[1..] {
                children.push(self.evaluate(argument, working, no_pairs)?);
            }
            children.push(value);
            let fits = children.len() <= job::limits::OPERANDS;
            let view = fits.then(|| self.application(call[0], &children))?;
            return Some(self.assumed((view, view)).proof);
        }
        let left = self.evaluate(left, working, no_pairs)?;
        Some(self.assumed((left, value)).proof)
    }

    fn bare_premise(&mut self, expression: u32, working: &Bindings) -> Option<u32> {
        if self.is_container_call(expression) {
            if self.conditions {
                self.evaluate(expression, working, &mut Vec::new())?;
            }
            return Some(self.unchecked_premise());
        }
        let value = self.evaluate(expression, working, &mut Vec::new())?;
        let left = self.any_term();
        Some(self.assumed((left, value)).proof)
    }

    fn expression_words(&self, expression: u32) -> Vec<u32> {
        self.tables.of(Table::Expressions)[expression as usize]
            .words
            .clone()
    }

    pub fn is_container_call(&self, expression: u32) -> bool {
        let cell = &self.tables.of(Table::Expressions)[expression as usize];
        cell.kind == 4 && primitives::gives_containers(self.primitive_kind(cell.words[0]))
    }

    fn is_function_fact(&self, left: u32, right: u32) -> bool {
        let kind = |expression: u32| self.tables.of(Table::Expressions)[expression as usize].kind;
        kind(left) == 3 && kind(right) == 1
    }

    /// Both sides have the same value, or an unbound variable side is bound to the other.
    fn instance_condition(&mut self, left: u32, right: u32, working: &mut Bindings) -> Option<()> {
        let unbound = |world: &World, side: u32, working: &Bindings| {
            let cell = &world.tables.of(Table::Expressions)[side as usize];
            let name = cell.words[0];
            (cell.kind == 1 && !working.contains_key(&name)).then_some(name)
        };
        for (side, other) in [(left, right), (right, left)] {
            if let Some(name) = unbound(self, side, working) {
                let value = self.evaluate(other, working, &mut Vec::new())?;
                working.insert(name, value);
                return Some(());
            }
        }
        let left = self.evaluate(left, working, &mut Vec::new())?;
        let right = self.evaluate(right, working, &mut Vec::new())?;
        (left == right).then_some(())
    }

    /// The pairs of the head under this plan's bindings.
    fn instance_head(&mut self, plan: &Plan) -> Option<Vec<Pair>> {
        let mut bindings = plan.working.clone();
        let mut pairs = Vec::new();
        for &action in &plan.actions {
            let cell = self.tables.of(Table::Actions)[action as usize].clone();
            let expressions = match cell.kind {
                0 => &cell.words[1..],
                _ => &cell.words[..],
            };
            let mut values = Vec::new();
            for &expression in expressions {
                values.push(self.evaluate(expression, &bindings, &mut pairs)?);
            }
            match cell.kind {
                0 => {
                    bindings.insert(cell.words[0], values[0]);
                }
                1 => pairs.extend([(values[0], values[1]), (values[1], values[0])]),
                _ => {}
            }
        }
        Some(pairs)
    }
}
