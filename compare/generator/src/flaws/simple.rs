//! Flaws in symmetry, transitivity, congruence, fiat, normalisation and eval.

use super::Flawed;
use crate::world::{Proved, World};

/// Stands for 25 where the left side is wrong too.
const BOTH: u32 = 1_000;

impl World {
    /// 20.
    pub(super) fn wrong_claim(&mut self) -> Flawed {
        let inner = self.any_proved();
        let right = match self.random.once_in(2) {
            true => self.proved_from(inner.right),
            false => None,
        };
        match right {
            Some(right) => {
                let claimed = self.other_pair((inner.left, right.right));
                let proof = self.tables.transitivity(claimed, inner.proof, right.proof);
                self.flawed(proof, claimed)
            }
            None => {
                let claimed = self.other_pair((inner.right, inner.left));
                let proof = self.tables.symmetry(claimed, inner.proof);
                self.flawed(proof, claimed)
            }
        }
    }

    /// A proof that holds and whose left side is another term.
    pub(super) fn proved_not_from(&mut self, left: u32) -> Proved {
        let there: Vec<Proved> = self
            .proved
            .iter()
            .copied()
            .filter(|proved| proved.left != left)
            .collect();
        match self.random.pick_any(&there) {
            Some(proved) => proved,
            None => loop {
                let proved = self.literal_fiat();
                if proved.left != left {
                    return proved;
                }
            },
        }
    }

    /// 21.
    pub(super) fn wrong_middle(&mut self) -> Flawed {
        let left = self.any_proved();
        let right = self.proved_not_from(left.right);
        let claimed = match self.random.once_in(2) {
            true => (left.left, right.right),
            false => (self.any_term(), self.any_term()),
        };
        let proof = self.tables.transitivity(claimed, left.proof, right.proof);
        self.flawed(proof, claimed)
    }

    /// A reflexive proof of an application, by a rule without facts.
    pub fn proved_application(&mut self, head: u32, children: usize) -> Proved {
        let mut plan = self.empty_plan();
        let arguments: Vec<u32> = (0..children).map(|_| self.leaf(&[])).collect();
        let call = self.expression(2, &[&[head], &arguments[..]].concat());
        let mut pairs = Vec::new();
        let value = self
            .evaluate(call, &plan.working, &mut pairs)
            .expect("a value");
        let action = self.tables.expression_action(call);
        plan.actions.push(action);
        self.push_rule(&plan);
        let proof = self.push_rule_step(&plan, (value, value));
        self.note(proof, (value, value))
    }

    /// A proof of a pair of different terms.
    pub fn proved_unequal(&mut self) -> Proved {
        let there: Vec<Proved> = self
            .proved
            .iter()
            .copied()
            .filter(|proved| !proved.reflexive())
            .collect();
        if let Some(proved) = self.random.pick_any(&there) {
            return proved;
        }
        let mut plan = self.empty_plan();
        let words = [[2, 1, 0], [2, 2, 0]];
        let sides = words.map(|words| self.expression(0, &words));
        let terms = words.map(|words| self.term(0, words.to_vec()));
        let action = self.tables.union_action(sides[0], sides[1]);
        plan.actions.push(action);
        self.push_rule(&plan);
        let pair = (terms[0], terms[1]);
        let proof = self.push_rule_step(&plan, pair);
        self.note(proof, pair)
    }

    /// A base whose right side is an application with a child.
    fn some_base(&mut self) -> (Proved, u32, Vec<u32>) {
        if let Some(found) = self.base_proof() {
            return found;
        }
        let head = self.any_head();
        let children = self.random.between(1, 3);
        let base = self.proved_application(head, children);
        let (head, children) = self.as_application(base.right).expect("an application");
        (base, head, children)
    }

    /// 22 to 26.
    pub(super) fn wrong_congruence(&mut self, number: u32) -> Flawed {
        match number {
            22 => self.congruence_on_no_application(),
            25 if self.random.once_in(3) => self.wrong_sides(BOTH),
            _ => self.wrong_sides(number),
        }
    }

    /// 23 to 26, or 25 with both sides wrong.
    fn wrong_sides(&mut self, number: u32) -> Flawed {
        let (base, head, mut children) = self.some_base();
        let place = self.random.below(children.len());
        let fitting = self.proved_from(children[place]);
        let child = match (number, fitting) {
            (24, _) => self.proved_not_from(children[place]),
            (_, Some(child)) => child,
            (_, None) => self.any_proved(),
        };
        let index = match number {
            23 => self.index_past(children.len()),
            _ => place as u32,
        };
        children[place] = child.right;
        let right = self.application(head, &children);
        let claimed = match number {
            25 => (base.left, self.other_term(right)),
            26 => (self.other_term(base.left), right),
            BOTH => (self.other_term(base.left), self.other_term(right)),
            _ => (base.left, right),
        };
        let proof = self
            .tables
            .congruence(claimed, base.proof, index, child.proof);
        self.flawed(proof, claimed)
    }

    fn index_past(&mut self, children: usize) -> u32 {
        match self.random.below(4) {
            0 => u32::MAX,
            1 => (children + self.random.below(5)) as u32,
            _ => children as u32,
        }
    }

    fn congruence_on_no_application(&mut self) -> Flawed {
        let base = self.literal_fiat();
        let child = self.any_proved();
        let claimed = (self.any_term(), self.any_term());
        let index = self.random.below(3) as u32;
        let proof = self
            .tables
            .congruence(claimed, base.proof, index, child.proof);
        self.flawed(proof, claimed)
    }

    /// 33.
    pub(super) fn wrong_fiat(&mut self) -> Flawed {
        let mut claimed = (self.any_term(), self.any_term());
        if self.random.once_in(4) {
            let name = self.names.variable(0);
            let variable = self.term(1, vec![name]);
            claimed = (variable, variable);
        } else if self.random.once_in(3) {
            let proved = self.any_proved();
            claimed = (proved.left, proved.right);
        }
        let proof = self.tables.fiat(claimed);
        self.flawed(proof, claimed)
    }

    /// 40.
    pub(super) fn wrong_normalisation(&mut self) -> Flawed {
        let inner = self.any_proved();
        let normal = self.normal_form(inner.right);
        let claimed = match self.random.below(4) {
            0 => (inner.left, self.normal_form(normal)),
            1 => (inner.left, inner.right),
            _ => self.other_pair((inner.left, normal)),
        };
        let proof = self.tables.normalisation(claimed, inner.proof);
        self.flawed(proof, claimed)
    }

    /// 41.
    pub(super) fn stray_eval(&mut self) -> Flawed {
        let claimed = (self.any_term(), self.any_term());
        let proof = self.tables.eval(claimed);
        self.flawed(proof, claimed)
    }
}
