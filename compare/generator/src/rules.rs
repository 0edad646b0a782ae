//! Rule steps that hold: facts made to fit proofs, side conditions, a head.

use job::Table;

use crate::world::{Bindings, Pair, Proved, World};

/// A fact of a rule's body and the proof opposite to it.
#[derive(Clone, Copy, Debug)]
pub struct PlannedFact {
    pub fact: u32,
    pub premise: u32,
}

/// A rule and an instance of it.
#[derive(Clone, Debug)]
pub struct Plan {
    pub name: u32,
    pub facts: Vec<PlannedFact>,
    /// The substitution that the proof gives.
    pub pairs: Bindings,
    /// Globals, then the substitution, then what side conditions bind.
    pub working: Bindings,
    pub actions: Vec<u32>,
    pub head_pairs: Vec<Pair>,
}

impl Plan {
    pub fn names(&self) -> Vec<u32> {
        self.working.keys().copied().collect()
    }

    pub fn bind(&mut self, name: u32, term: u32) {
        self.pairs.insert(name, term);
        self.working.insert(name, term);
    }
}

/// Pairs that a plan fills by choice; past them only where there is no other way.
const PAIRS_BY_CHOICE: usize = 28;

impl World {
    /// A plan without facts and head.
    pub fn empty_plan(&mut self) -> Plan {
        let place = self.tables.count(Table::Rules) as usize;
        let mut plan = Plan {
            name: self.names.rule(place),
            facts: Vec::new(),
            pairs: Bindings::new(),
            working: self.globals.clone(),
            actions: Vec::new(),
            head_pairs: Vec::new(),
        };
        if self.random.once_in(5) {
            self.shadow_a_global(&mut plan);
        }
        plan
    }

    /// The substitution overrides a global binding.
    fn shadow_a_global(&mut self, plan: &mut Plan) {
        let names = plan.names();
        if let Some(name) = self.random.pick_any(&names) {
            let term = self.any_term();
            plan.bind(name, term);
        }
    }

    /// A rule whose facts fit proofs that are there.
    pub fn plan(&mut self) -> Plan {
        let mut plan = self.empty_plan();
        let facts = match self.random.below(40) {
            0 => self.random.between(5, job::limits::FACTS),
            _ => self.random.below(4),
        };
        for _ in 0..facts + usize::from(self.conditions) {
            if plan.facts.len() < job::limits::FACTS {
                self.plan_fact(&mut plan);
            }
        }
        self.plan_head(&mut plan);
        plan
    }

    pub fn plan_fact(&mut self, plan: &mut Plan) {
        self.note_integers(&plan.working);
        if self.conditions && self.random.once_in(2) {
            return self.plan_bare_condition(plan);
        }
        if self.counting && self.random.once_in(4) {
            let bare = self.random.once_in(3);
            return self.plan_count(plan, bare);
        }
        match self.random.below(8) {
            0..=2 => self.plan_equality(plan),
            3 => self.plan_bare(plan),
            4 | 5 => self.plan_function_fact(plan),
            _ => self.plan_side_condition(plan),
        }
    }

    pub fn push_fact(&mut self, plan: &mut Plan, fact: u32, premise: u32) {
        plan.facts.push(PlannedFact { fact, premise });
    }

    pub fn plan_equality(&mut self, plan: &mut Plan) {
        let premise = self.any_proved();
        let left = self.abstracted(premise.left, plan, 2);
        let right = self.abstracted(premise.right, plan, 2);
        let fact = self.tables.equality(left, right);
        self.push_fact(plan, fact, premise.proof);
    }

    pub fn plan_bare(&mut self, plan: &mut Plan) {
        let premise = self.any_proved();
        let expression = self.abstracted(premise.right, plan, 2);
        let fact = self.tables.bare(expression);
        self.push_fact(plan, fact, premise.proof);
    }

    /// Custom call = variable, opposite a reflexive proof of the view.
    pub fn plan_function_fact(&mut self, plan: &mut Plan) {
        let Some(views) = self.views() else {
            return self.plan_bare(plan);
        };
        let mut words = vec![views.head];
        for &input in &views.inputs {
            words.push(self.abstracted(input, plan, 2));
        }
        let call = self.expression(3, &words);
        let variable = self.variable_for(views.old_value, plan);
        let fact = self.tables.equality(call, variable);
        self.push_fact(plan, fact, views.old.proof);
    }

    /// A name bound to this term.
    fn bound_name(&mut self, term: u32, plan: &Plan) -> Option<u32> {
        let names: Vec<u32> = plan
            .working
            .iter()
            .filter(|&(_, &bound)| bound == term)
            .map(|(&name, _)| name)
            .collect();
        self.random.pick_any(&names)
    }

    /// A name that is not bound; past the usual ones where chance finds none.
    pub fn fresh_name(&mut self, plan: &Plan) -> u32 {
        if let Some(name) = self.name_in_a_call(plan) {
            return name;
        }
        for _ in 0..200 {
            let place = self.random.below(48);
            let name = self.names.variable(place);
            if !plan.working.contains_key(&name) {
                return name;
            }
        }
        self.names.variable(60 + plan.working.len())
    }

    /// A variable with this value; bound by the substitution if none is.
    fn variable_for(&mut self, term: u32, plan: &mut Plan) -> u32 {
        let name = match self.bound_name(term, plan) {
            Some(name) if !self.random.once_in(4) => name,
            _ => {
                let name = self.fresh_name(plan);
                plan.bind(name, term);
                name
            }
        };
        self.expression(1, &[name])
    }

    /// An expression in normal form that evaluates to the term in an ordinary fact.
    pub fn abstracted(&mut self, term: u32, plan: &mut Plan, depth: usize) -> u32 {
        let full = plan.pairs.len() >= PAIRS_BY_CHOICE;
        if self.counting
            && depth > 0
            && self.random.once_in(3)
            && let Some(expression) = self.count_for(term, plan, depth)
        {
            return expression;
        }
        let cell = self.tables.of(Table::Terms)[term as usize].clone();
        if cell.kind == 0 && (full || self.random.once_in(2)) {
            return self.expression(0, &cell.words);
        }
        if depth > 0
            && self.random.once_in(8)
            && let Some(expression) = self.primitive_for(term, plan)
        {
            return expression;
        }
        if cell.kind == 2 && depth > 0 && (full || !self.random.once_in(3)) {
            let mut words = vec![cell.words[0]];
            for &child in &cell.words[1..] {
                words.push(self.abstracted(child, plan, depth - 1));
            }
            return self.expression(2, &words);
        }
        self.variable_for(term, plan)
    }

    /// A call of a plain primitive with this value.
    fn primitive_for(&mut self, term: u32, plan: &Plan) -> Option<u32> {
        let plain = self.primitives(&[1]);
        let primitive = self.random.pick_any(&plain)?;
        let call = self.fact_call(primitive, &plan.names());
        self.give_value(call, &plan.working, term).then_some(call)
    }

    /// Makes the row that gives a primitive call this value; false where it has another.
    pub fn give_value(&mut self, call: u32, bindings: &Bindings, term: u32) -> bool {
        let words = self.tables.of(Table::Expressions)[call as usize]
            .words
            .clone();
        let mut values = Vec::new();
        for &argument in &words[1..] {
            match self.evaluate(argument, bindings, &mut Vec::new()) {
                Some(value) => values.push(value),
                None => return false,
            }
        }
        match self.row(words[0], &values) {
            Some(result) => result == term,
            None => self.make_row(words[0], &values, term),
        }
    }

    /// Any proof, good or not: nothing is asked of it.
    pub fn unchecked_premise(&mut self) -> u32 {
        match self.proof_count() {
            count if count > 0 && !self.random.once_in(3) => {
                self.random.below(count as usize) as u32
            }
            _ => {
                let claimed = (self.any_term(), self.any_term());
                self.tables.eval(claimed)
            }
        }
    }

    pub fn plan_side_condition(&mut self, plan: &mut Plan) {
        let count = self.counting && self.random.once_in(3);
        let fact = match self.random.below(6) {
            _ if count => self.condition_on_count(plan),
            0 if self.conditions => self.evaluated_condition(plan),
            0 => self.bare_condition(plan),
            1 => self.condition_on_known(plan),
            2 => self.condition_on_call(plan),
            3 => self.condition_of_two_containers(plan),
            _ => self.binding_condition(plan),
        };
        if let Some(fact) = fact {
            let premise = self.unchecked_premise();
            self.push_fact(plan, fact, premise);
        }
    }

    /// The two sides of an equality in either order.
    pub fn either_way(&mut self, left: u32, right: u32) -> u32 {
        match self.random.once_in(2) {
            true => self.tables.equality(left, right),
            false => self.tables.equality(right, left),
        }
    }

    /// In mode 0 a bare container call passes unevaluated, whatever is unbound in it.
    fn bare_condition(&mut self, plan: &mut Plan) -> Option<u32> {
        let primitive = self.some_primitive(&[2, 3]);
        let mut names = plan.names();
        names.push(self.fresh_name(plan));
        let call = self.fact_call(primitive, &names);
        Some(self.tables.bare(call))
    }

    /// A container call that has a value, and the value.
    pub fn container_call(&mut self, plan: &Plan) -> Option<(u32, u32)> {
        let primitive = self.some_primitive(&[3]);
        let call = self.fact_call(primitive, &plan.names());
        let value = self.evaluate(call, &plan.working, &mut Vec::new())?;
        Some((call, value))
    }

    /// An unbound variable is bound to a container call's value.
    pub fn binding_condition(&mut self, plan: &mut Plan) -> Option<u32> {
        let (call, value) = self.container_call(plan)?;
        let name = self.fresh_name(plan);
        let variable = self.expression(1, &[name]);
        plan.working.insert(name, value);
        Some(self.either_way(variable, call))
    }

    /// A bound variable or a literal equals a container call.
    fn condition_on_known(&mut self, plan: &mut Plan) -> Option<u32> {
        let (call, value) = self.container_call(plan)?;
        let known = match self.bound_name(value, plan) {
            Some(name) => self.expression(1, &[name]),
            None if self.is_literal(value) => {
                let words = self.tables.of(Table::Terms)[value as usize].words.clone();
                self.expression(0, &words)
            }
            None => {
                let name = self.fresh_name(plan);
                plan.bind(name, value);
                self.expression(1, &[name])
            }
        };
        Some(self.either_way(known, call))
    }

    /// A constructor or custom call equals a container call.
    fn condition_on_call(&mut self, plan: &mut Plan) -> Option<u32> {
        let head = self.any_head();
        let mut words = vec![head];
        for _ in 0..self.random.below(3) {
            words.push(self.leaf(&plan.names()));
        }
        let kind = self.random.pick(&[2, 3]);
        let left = self.expression(kind, &words);
        let value = self.evaluate(left, &plan.working, &mut Vec::new())?;
        let primitive = self.some_primitive(&[3]);
        let call = self.fact_call(primitive, &plan.names());
        let fits = self.give_value(call, &plan.working, value);
        fits.then(|| self.either_way(left, call))
    }

    fn condition_of_two_containers(&mut self, plan: &mut Plan) -> Option<u32> {
        let (left, value) = self.container_call(plan)?;
        let primitive = self.some_primitive(&[1, 3]);
        let right = self.fact_call(primitive, &plan.names());
        let fits = self.give_value(right, &plan.working, value);
        fits.then(|| self.either_way(left, right))
    }

    /// Actions that have a value, until there is a pair to claim.
    pub fn plan_head(&mut self, plan: &mut Plan) {
        let mut bindings = plan.working.clone();
        let mut pairs = Vec::new();
        for _ in 0..self.random.between(1, 4) {
            let names: Vec<u32> = bindings.keys().copied().collect();
            let mut new_pairs = Vec::new();
            if let Some(action) = self.action(&names, &mut bindings, &mut new_pairs) {
                plan.actions.push(action);
                pairs.extend(new_pairs);
            }
        }
        if pairs.is_empty() {
            let expression = self.literal_expression();
            self.evaluate(expression, &bindings, &mut pairs);
            let action = self.tables.expression_action(expression);
            plan.actions.push(action);
        }
        if self.random.once_in(100) {
            let last = *plan.actions.last().expect("an action");
            let is_let = self.tables.of(Table::Actions)[last as usize].kind == 0;
            if !(self.counting && is_let) {
                plan.actions.resize(job::limits::ACTIONS, last);
            }
        }
        plan.head_pairs = pairs;
    }

    /// Appends the plan's rule.
    pub fn push_rule(&mut self, plan: &Plan) -> u32 {
        let facts: Vec<u32> = plan.facts.iter().map(|planned| planned.fact).collect();
        self.tables.rule(plan.name, &facts, &plan.actions)
    }

    /// Appends a step by the plan's rule.
    pub fn push_rule_step(&mut self, plan: &Plan, claimed: Pair) -> u32 {
        let premises: Vec<u32> = plan.facts.iter().map(|planned| planned.premise).collect();
        let pairs: Vec<(u32, u32)> = plan
            .pairs
            .iter()
            .map(|(&name, &term)| (name, term))
            .collect();
        self.tables.rule_step(claimed, plan.name, &premises, &pairs)
    }

    /// A plan of a rule that is there: an instance that is known, another one, or a new rule.
    fn plan_with_rule(&mut self) -> Plan {
        if !self.plans.is_empty() && self.random.once_in(2) {
            let place = self.random.below(self.plans.len());
            let known = self.plans[place].clone();
            if self.random.once_in(3) {
                return known;
            }
            if let Some(instance) = self.other_instance(&known) {
                return instance;
            }
        }
        let plan = self.plan();
        self.push_rule(&plan);
        self.plans.push(plan.clone());
        plan
    }

    pub fn rule_step(&mut self) -> Proved {
        let plan = self.plan_with_rule();
        let unequal: Vec<Pair> = plan
            .head_pairs
            .iter()
            .copied()
            .filter(|pair| pair.0 != pair.1)
            .collect();
        let claimed = match self.random.pick_any(&unequal) {
            Some(pair) if self.random.once_in(2) => pair,
            _ => self.random.pick(&plan.head_pairs),
        };
        let proof = self.push_rule_step(&plan, claimed);
        self.note(proof, claimed)
    }
}
