//! Bare container conditions, which strict mode evaluates: with a value.

use job::Table;
use job::limits::FACTS;

use crate::rules::Plan;
use crate::world::World;

impl World {
    /// A bare container condition that has a value, sometimes behind one that binds a variable.
    pub fn plan_bare_condition(&mut self, plan: &mut Plan) {
        if plan.facts.len() + 1 < FACTS
            && self.random.once_in(4)
            && let Some(fact) = self.binding_condition(plan)
        {
            self.push_condition(plan, fact);
        }
        if let Some(fact) = self.evaluated_condition(plan) {
            self.push_condition(plan, fact);
        }
    }

    /// Opposite any proof, as it is never checked.
    fn push_condition(&mut self, plan: &mut Plan, fact: u32) {
        let premise = self.unchecked_premise();
        self.push_fact(plan, fact, premise);
    }

    /// A bare container condition with a value under the plan's bindings: a new one, or one that stands
    /// in this rule or another.
    pub fn evaluated_condition(&mut self, plan: &Plan) -> Option<u32> {
        if self.random.once_in(5)
            && let Some(fact) = self.known_condition()
        {
            let call = self.tables.of(Table::Facts)[fact as usize].words[0];
            let value = self.evaluate(call, &plan.working, &mut Vec::new());
            return value.map(|_| fact);
        }
        let names = self.condition_names(plan);
        let call = self.condition_call(&names, 2);
        self.evaluate(call, &plan.working, &mut Vec::new())?;
        Some(self.tables.bare(call))
    }

    /// A bare container condition that is there.
    fn known_condition(&mut self) -> Option<u32> {
        let cells = self.tables.of(Table::Facts);
        let conditions: Vec<u32> = (0..cells.len() as u32)
            .filter(|&number| {
                let cell = &cells[number as usize];
                cell.kind == 1 && self.is_container_call(cell.words[0])
            })
            .collect();
        self.random.pick_any(&conditions)
    }

    /// All names that are bound, or those alone that conditions bind.
    fn condition_names(&mut self, plan: &Plan) -> Vec<u32> {
        let names = plan.names();
        let by_conditions: Vec<u32> = names
            .iter()
            .copied()
            .filter(|name| !plan.pairs.contains_key(name) && !self.globals.contains_key(name))
            .collect();
        match by_conditions.is_empty() || self.random.once_in(2) {
            true => names,
            false => by_conditions,
        }
    }

    /// A name that is not bound and that a check could take from a call by mistake: a primitive's name or
    /// number. Seldom, and of a world with conditions only.
    pub fn name_in_a_call(&mut self, plan: &Plan) -> Option<u32> {
        if !self.conditions || !self.random.once_in(4) {
            return None;
        }
        let cells = self.tables.of(Table::Primitives);
        let place = self.random.below(cells.len().max(1));
        let name = match self.random.once_in(2) {
            true => cells.get(place)?.words[0],
            false => place as u32,
        };
        (!plan.working.contains_key(&name)).then_some(name)
    }

    /// A container call on variables, literals and calls of primitives, containers' among them.
    pub fn condition_call(&mut self, names: &[u32], depth: usize) -> u32 {
        let primitive = self.some_primitive(&[3]);
        let mut words = vec![primitive];
        for _ in 0..self.argument_count() {
            words.push(match depth > 0 && self.random.once_in(4) {
                true => self.condition_call(names, depth - 1),
                false => self.primitive_argument(names, depth),
            });
        }
        self.expression(4, &words)
    }
}
