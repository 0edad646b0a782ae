//! Facts with calls that compute: ordinary ones, and side conditions.

use crate::counts;
use crate::rules::Plan;
use crate::world::World;

impl World {
    /// A call that computes this integer, of arguments chosen for it.
    pub fn count_for(&mut self, term: u32, plan: &mut Plan, depth: usize) -> Option<u32> {
        let wanted = self.integer(term)?;
        let primitive = self.count_primitive();
        let kind = self.primitive_kind(primitive);
        let other = i128::from(self.any_integer());
        let most = self.random.once_in(2);
        let arguments = counts::arguments_for(kind, wanted, other, most)?;
        let mut words = vec![primitive];
        for argument in arguments {
            let term = self.integer_term(argument);
            words.push(self.abstracted(term, plan, depth - 1));
        }
        Some(self.expression(4, &words))
    }

    /// An ordinary fact with a call that computes, opposite a proof of its value.
    pub fn plan_count(&mut self, plan: &mut Plan, bare: bool) {
        let counted = self.count_with_value(&plan.names(), &plan.working);
        match counted {
            Some((call, value)) if bare => {
                let left = self.any_term();
                let premise = self.assumed((left, value));
                let fact = self.tables.bare(call);
                self.push_fact(plan, fact, premise.proof);
            }
            Some((call, value)) => self.plan_count_equality(plan, call, value),
            None if bare => self.plan_bare(plan),
            None => self.plan_equality(plan),
        }
    }

    /// The call on either side, anything on the other.
    fn plan_count_equality(&mut self, plan: &mut Plan, call: u32, value: u32) {
        let other = match self.random.once_in(2) {
            true => value,
            false => self.any_term(),
        };
        let side = self.abstracted(other, plan, 1);
        let (fact, pair) = match self.random.once_in(2) {
            true => (self.tables.equality(side, call), (other, value)),
            false => (self.tables.equality(call, side), (value, other)),
        };
        let premise = self.assumed(pair);
        self.push_fact(plan, fact, premise.proof);
    }

    /// A side condition: a call that computes opposite a container call.
    pub fn condition_on_count(&mut self, plan: &mut Plan) -> Option<u32> {
        let (call, value) = self.count_with_value(&plan.names(), &plan.working)?;
        let primitive = self.some_primitive(&[3]);
        let container = self.fact_call(primitive, &plan.names());
        let fits = self.give_value(container, &plan.working, value);
        fits.then(|| self.either_way(call, container))
    }
}
