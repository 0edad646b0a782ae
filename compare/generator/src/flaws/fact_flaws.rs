//! Flaws in the facts of a rule.

use job::Table;

use crate::rules::{Plan, PlannedFact};
use crate::world::{Proved, World};

impl World {
    /// A proof that holds and whose right side is another term.
    fn proved_not_to(&mut self, right: u32) -> Proved {
        let there: Vec<Proved> = self
            .proved
            .iter()
            .copied()
            .filter(|proved| proved.right != right)
            .collect();
        match self.random.pick_any(&there) {
            Some(proved) => proved,
            None => self.literal_fiat(),
        }
    }

    /// Puts a fact with this flaw somewhere among the facts that hold.
    pub(super) fn insert_flawed_fact(&mut self, plan: &mut Plan, number: u32) {
        let good = plan.facts.len();
        self.note_integers(&plan.working);
        let count = self.counting && !self.random.once_in(3);
        let (fact, premise) = match number {
            28 => self.function_fact_flaw(plan),
            29 | 30 => return self.swap_premise(plan, number),
            42 => self.condition_flaw(plan),
            45 => self.unbound_fact(plan),
            46 if count && self.random.once_in(2) => self.condition_without_count(plan),
            46 if count => {
                self.ordinary(plan, |world, names| world.count_without_value(names, false))
            }
            46 | 51 if self.random.once_in(2) => self.condition_without_value(plan, number),
            46 => self.ordinary(plan, |world, names| world.call_without_row(names)),
            51 => self.condition_without_value(plan, number),
            47 => self.ordinary(plan, |world, names| {
                let primitive = world.some_primitive(&[0]);
                world.fact_call(primitive, names)
            }),
            52 => self.custom_in_fact(plan),
            _ => self.not_in_normal_form(plan, number),
        };
        let place = self.random.below(good + 1);
        plan.facts.insert(place, PlannedFact { fact, premise });
    }

    /// A fact that fits, opposite a proof that does not.
    fn swap_premise(&mut self, plan: &mut Plan, number: u32) {
        match number {
            _ if self.counting && self.random.once_in(2) => self.plan_count(plan, number == 30),
            29 => self.plan_equality(plan),
            _ => self.plan_bare(plan),
        }
        let last = plan.facts.last().expect("a fact").premise;
        let proved = self
            .proved
            .iter()
            .find(|proved| proved.proof == last)
            .copied();
        let right = proved.map_or(0, |proved| proved.right);
        let other = match number {
            29 if self.random.once_in(2) => {
                let left = proved.map_or(0, |proved| proved.left);
                let pair = match self.random.below(3) {
                    0 => (right, left),
                    1 => (left, self.other_term(right)),
                    _ => (self.other_term(left), right),
                };
                self.assumed(pair)
            }
            30 if self.random.once_in(2) => {
                let pair = (right, self.other_term(right));
                self.assumed(pair)
            }
            29 if self.random.once_in(2) => {
                let left = proved.map_or(0, |proved| proved.left);
                self.proved_not_from(left)
            }
            _ => self.proved_not_to(right),
        };
        plan.facts.last_mut().expect("a fact").premise = other.proof;
    }

    /// 28: a call and a variable, opposite any proof; seldom with 16 arguments.
    fn function_fact_flaw(&mut self, plan: &mut Plan) -> (u32, u32) {
        let names: Vec<u32> = plan.pairs.keys().copied().collect();
        let mut words = vec![self.any_head()];
        for _ in 0..self.argument_count() {
            words.push(match self.counting && self.random.once_in(3) {
                true => self.count_expression(&names, 1),
                false => self.leaf(&names),
            });
        }
        let call = self.expression(3, &words);
        let name = self.fresh_name(plan);
        let value = self.any_term();
        plan.pairs.insert(name, value);
        plan.working.insert(name, value);
        let variable = self.expression(1, &[name]);
        let premise = match self.random.below(3) {
            0 => self.any_proved(),
            _ => self.half_of_view(call, value, plan),
        };
        (self.tables.equality(call, variable), premise.proof)
    }

    /// A proof one side of which is the view that a function fact asks for.
    fn half_of_view(&mut self, call: u32, value: u32, plan: &Plan) -> Proved {
        let words = self.tables.of(Table::Expressions)[call as usize]
            .words
            .clone();
        let mut bindings = self.globals.clone();
        bindings.extend(&plan.pairs);
        let mut children = Vec::new();
        for &argument in &words[1..] {
            children.extend(self.evaluate(argument, &bindings, &mut Vec::new()));
        }
        children.push(value);
        if children.len() > job::limits::OPERANDS {
            return self.any_proved();
        }
        let view = self.application(words[0], &children);
        let other = self.other_term(view);
        let pair = self.random.pick(&[(view, other), (other, view)]);
        self.assumed(pair)
    }

    /// 42: a container call whose value is not that of the other side.
    fn condition_flaw(&mut self, plan: &mut Plan) -> (u32, u32) {
        let premise = self.unchecked_premise();
        let names: Vec<u32> = plan.pairs.keys().copied().collect();
        let primitive = self.some_primitive(&[3]);
        let call = self.fact_call(primitive, &names);
        let mut bindings = self.globals.clone();
        bindings.extend(&plan.pairs);
        let value = self.evaluate(call, &bindings, &mut Vec::new()).unwrap_or(0);
        let other = self.other_term(value);
        let name = self.fresh_name(plan);
        plan.pairs.insert(name, other);
        plan.working.insert(name, other);
        let variable = self.expression(1, &[name]);
        let count = match self.counting && self.random.once_in(2) {
            true => self.count_for(other, plan, 1),
            false => None,
        };
        let side = match (count, self.random.below(3)) {
            (Some(count), _) => count,
            (None, 0) => {
                let head = self.any_head();
                let kind = self.random.pick(&[2, 3]);
                self.expression(kind, &[head, variable])
            }
            _ => variable,
        };
        let fact = match self.random.once_in(2) {
            true => self.tables.equality(side, call),
            false => self.tables.equality(call, side),
        };
        (fact, premise)
    }

    /// 46 and 51 in a side condition.
    fn condition_without_value(&mut self, plan: &mut Plan, number: u32) -> (u32, u32) {
        let premise = self.unchecked_premise();
        let names: Vec<u32> = plan.pairs.keys().copied().collect();
        let primitive = match number {
            46 => self.some_primitive(&[3]),
            _ => self.some_primitive(&[2]),
        };
        let literal = self.word_literal();
        let leaf = self.leaf(&names);
        let call = self.expression(4, &[primitive, leaf, literal]);
        let other = self.leaf(&names);
        let fact = match self.random.once_in(2) {
            true => self.tables.equality(other, call),
            false => self.tables.equality(call, other),
        };
        (fact, premise)
    }

    /// An ordinary fact around an expression that has no value.
    fn ordinary(
        &mut self,
        plan: &mut Plan,
        make: impl Fn(&mut World, &[u32]) -> u32,
    ) -> (u32, u32) {
        let names: Vec<u32> = plan.pairs.keys().copied().collect();
        let mut expression = make(self, &names);
        if self.random.once_in(2) {
            let head = self.any_head();
            let before = self.leaf(&names);
            expression = self.expression(2, &[head, before, expression]);
        }
        let premise = self.any_proved().proof;
        let fact = match self.random.below(3) {
            0 => {
                let other = self.leaf(&names);
                self.tables.equality(other, expression)
            }
            1 => {
                let other = self.leaf(&names);
                self.tables.equality(expression, other)
            }
            _ => self.tables.bare(expression),
        };
        (fact, premise)
    }

    /// 45: an unbound variable in an ordinary fact, a function fact or a side condition.
    fn unbound_fact(&mut self, plan: &mut Plan) -> (u32, u32) {
        let name = self.fresh_name(plan);
        match self.random.below(4) {
            0 => {
                let variable = self.expression(1, &[name]);
                let head = self.any_head();
                let first = self.word_literal();
                let second = self.call_without_row(&[]);
                let arguments = self.random.pick(&[first, second, variable]);
                let call = self.expression(3, &[head, arguments]);
                let premise = self.any_proved().proof;
                (self.tables.equality(call, variable), premise)
            }
            1 => {
                let variable = self.expression(1, &[name]);
                let primitive = self.some_primitive(&[2, 3]);
                let call = self.expression(4, &[primitive, variable]);
                let premise = self.unchecked_premise();
                (self.tables.equality(variable, call), premise)
            }
            _ => self.ordinary(plan, move |world, _| world.expression(1, &[name])),
        }
    }

    /// 52: a custom call where it is evaluated.
    fn custom_in_fact(&mut self, plan: &mut Plan) -> (u32, u32) {
        let names: Vec<u32> = plan.pairs.keys().copied().collect();
        let head = self.any_head();
        let inner = self.leaf(&names);
        let call = match self.custom_call_elsewhere() {
            Some(call) if self.random.once_in(3) => call,
            _ => self.expression(3, &[head, inner]),
        };
        let premise = self.any_proved().proof;
        let fact = match self.random.below(5) {
            0 => self.tables.bare(call),
            1 => {
                let other = self.leaf(&names);
                self.tables.equality(other, call)
            }
            2 => self.tables.equality(call, call),
            3 => {
                let literal = self.literal_expression();
                self.tables.equality(call, literal)
            }
            _ => {
                let kind = self.random.pick(&[2, 3]);
                let outer = self.expression(kind, &[head, inner, call]);
                self.tables.bare(outer)
            }
        };
        (fact, premise)
    }

    /// A custom call that stands elsewhere in the job, where it may have a value.
    fn custom_call_elsewhere(&mut self) -> Option<u32> {
        let cells = self.tables.of(Table::Expressions);
        let calls: Vec<u32> = (0..cells.len() as u32)
            .filter(|&number| cells[number as usize].kind == 3)
            .collect();
        self.random.pick_any(&calls)
    }

    /// 49 and 50, somewhere inside a fact.
    fn not_in_normal_form(&mut self, plan: &mut Plan, number: u32) -> (u32, u32) {
        let names: Vec<u32> = plan.pairs.keys().copied().collect();
        if self.random.once_in(2) {
            return self.wild_fact(&names);
        }
        let head = self.any_head();
        let kind = self.random.pick(&[2, 3]);
        let leaf = self.leaf(&names);
        let mut offender = match number {
            49 => {
                let inner = self.expression(kind, &[head, leaf]);
                let primitive = self.primitive_of_any_kind();
                self.expression(4, &[primitive, leaf, inner])
            }
            _ => {
                let primitive = self.some_primitive(&[2, 3]);
                let inner = self.expression(4, &[primitive, leaf]);
                self.expression(kind, &[head, leaf, inner])
            }
        };
        if number == 50 && self.random.once_in(3) {
            offender = self.expression(kind, &[head, offender]);
        }
        let premise = self.unchecked_premise();
        let fact = match self.random.below(3) {
            0 => self.tables.bare(offender),
            1 => self.tables.equality(leaf, offender),
            _ => self.tables.equality(offender, leaf),
        };
        (fact, premise)
    }

    /// A fact with several places that are not in normal form.
    fn wild_fact(&mut self, names: &[u32]) -> (u32, u32) {
        let premise = self.unchecked_premise();
        let left = self.wild_expression(names, 3);
        let right = self.wild_expression(names, 3);
        let fact = match self.random.once_in(3) {
            true => self.tables.bare(left),
            false => self.tables.equality(left, right),
        };
        (fact, premise)
    }
}
