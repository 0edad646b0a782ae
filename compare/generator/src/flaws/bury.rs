//! Steps on top of a flawed proof, which is then found below.

use super::Flawed;
use crate::rules::PlannedFact;
use crate::world::World;

impl World {
    /// Appends a step that refers to the flawed proof.
    pub fn bury(&mut self, flawed: Flawed) -> Flawed {
        let (left, right) = flawed.claimed;
        match self.random.below(5) {
            0 => {
                let claimed = (right, left);
                let proof = self.tables.symmetry(claimed, flawed.proof);
                Flawed { proof, claimed }
            }
            1 => self.bury_in_transitivity(flawed),
            2 => {
                let claimed = (left, self.any_term());
                let proof = self.tables.normalisation(claimed, flawed.proof);
                Flawed { proof, claimed }
            }
            3 => {
                let base = self.any_proved();
                let claimed = (base.left, self.any_term());
                let proof = self.tables.congruence(claimed, base.proof, 0, flawed.proof);
                Flawed { proof, claimed }
            }
            _ => self.bury_in_rule(flawed),
        }
    }

    /// Appends a step that refers to two flawed proofs; the first in its order is found.
    pub fn join(&mut self, first: Flawed, second: Flawed) -> Flawed {
        let claimed = (first.claimed.0, second.claimed.1);
        let proof = match self.random.below(4) {
            0 => self.tables.transitivity(claimed, first.proof, second.proof),
            1 => {
                let head = self.any_head();
                self.tables
                    .merge_step(claimed, head, first.proof, second.proof)
            }
            2 => self
                .tables
                .congruence(claimed, first.proof, 0, second.proof),
            _ => return self.join_in_rule(first, second),
        };
        Flawed { proof, claimed }
    }

    fn join_in_rule(&mut self, first: Flawed, second: Flawed) -> Flawed {
        let mut plan = self.empty_plan();
        for flawed in [first, second] {
            let right = self.abstracted(flawed.claimed.1, &mut plan, 1);
            let fact = self.tables.bare(right);
            let premise = flawed.proof;
            plan.facts.push(PlannedFact { fact, premise });
        }
        self.plan_head(&mut plan);
        self.push_rule(&plan);
        let claimed = self.random.pick(&plan.head_pairs);
        let proof = self.push_rule_step(&plan, claimed);
        Flawed { proof, claimed }
    }

    fn bury_in_transitivity(&mut self, flawed: Flawed) -> Flawed {
        let (left, right) = flawed.claimed;
        let good = self.any_proved();
        let (claimed, first, second) = match self.random.once_in(2) {
            true => ((good.left, right), good.proof, flawed.proof),
            false => ((left, good.right), flawed.proof, good.proof),
        };
        let proof = self.tables.transitivity(claimed, first, second);
        Flawed { proof, claimed }
    }

    /// The flawed proof is a premise, after those of other facts.
    fn bury_in_rule(&mut self, flawed: Flawed) -> Flawed {
        let mut plan = self.plan();
        if plan.facts.len() < job::limits::FACTS {
            let left = self.abstracted(flawed.claimed.0, &mut plan, 1);
            let right = self.abstracted(flawed.claimed.1, &mut plan, 1);
            let fact = self.tables.equality(left, right);
            let premise = flawed.proof;
            plan.facts.push(PlannedFact { fact, premise });
        }
        self.push_rule(&plan);
        let claimed = self.random.pick(&plan.head_pairs);
        let proof = self.push_rule_step(&plan, claimed);
        Flawed { proof, claimed }
    }
}
