//! Proof steps that hold: symmetry, transitivity, congruence, normalisation, merge.

use job::Table;

use crate::names::{NEW, OLD};
use crate::world::{Bindings, Pair, Proved, World};

/// Two reflexive proofs of views of one head with equal inputs.
#[derive(Clone, Debug)]
pub struct Views {
    pub head: u32,
    pub inputs: Vec<u32>,
    pub old: Proved,
    pub new: Proved,
    pub old_value: u32,
    pub new_value: u32,
}

impl World {
    /// Appends a step that holds.
    pub fn any_step(&mut self) -> Proved {
        if self.conditions && self.random.once_in(2) {
            return self.rule_step();
        }
        if self.counting && self.random.once_in(8) {
            return self.merge_step();
        }
        match self.random.below(18) {
            0 => self.symmetry_step(),
            1..=3 => self.transitivity_step(),
            4..=6 => self.congruence_step(),
            7 | 8 => self.normalisation_step(),
            9..=11 => self.merge_step(),
            _ => self.rule_step(),
        }
    }

    pub fn symmetry_step(&mut self) -> Proved {
        let inner = self.any_proved();
        let pair = (inner.right, inner.left);
        let proof = self.tables.symmetry(pair, inner.proof);
        self.note(proof, pair)
    }

    /// A proof whose left side is this term; for a literal a fiat.
    pub fn proved_from(&mut self, left: u32) -> Option<Proved> {
        let there: Vec<Proved> = self
            .proved
            .iter()
            .copied()
            .filter(|proved| proved.left == left)
            .collect();
        if let Some(proved) = self.random.pick_any(&there) {
            return Some(proved);
        }
        if self.is_literal(left) || self.global_pairs.contains(&(left, left)) {
            let proof = self.tables.fiat((left, left));
            return Some(self.note(proof, (left, left)));
        }
        None
    }

    pub fn transitivity_step(&mut self) -> Proved {
        let left = self.any_proved();
        let Some(right) = self.proved_from(left.right) else {
            return self.symmetry_step();
        };
        let pair = (left.left, right.right);
        let proof = self.tables.transitivity(pair, left.proof, right.proof);
        self.note(proof, pair)
    }

    /// A proof whose right side is an application with a child.
    pub fn base_proof(&mut self) -> Option<(Proved, u32, Vec<u32>)> {
        let bases: Vec<Proved> = self
            .proved
            .iter()
            .copied()
            .filter(|proved| {
                self.as_application(proved.right)
                    .is_some_and(|(_, children)| {
                        !children.is_empty() && children.len() <= job::limits::OPERANDS
                    })
            })
            .collect();
        let base = self.random.pick_any(&bases)?;
        let (head, children) = self.as_application(base.right)?;
        Some((base, head, children))
    }

    pub fn congruence_step(&mut self) -> Proved {
        let Some((base, head, mut children)) = self.base_proof() else {
            return self.symmetry_step();
        };
        let index = self.random.below(children.len());
        let Some(child) = self.proved_from(children[index]) else {
            return self.symmetry_step();
        };
        children[index] = child.right;
        let right = self.application(head, &children);
        let pair = (base.left, right);
        let proof = self
            .tables
            .congruence(pair, base.proof, index as u32, child.proof);
        self.note(proof, pair)
    }

    /// The normal form of a term; a missing row is made, or kept missing.
    pub fn normal_form(&mut self, term: u32) -> u32 {
        let Some((head, children)) = self.as_application(term) else {
            return term;
        };
        let normaliser = self
            .tables
            .of(Table::Normalisers)
            .iter()
            .find(|cell| cell.words[0] == head)
            .map(|cell| cell.words[1]);
        let Some(primitive) = normaliser else {
            return term;
        };
        if let Some(result) = self.row(primitive, &children) {
            return result;
        }
        let result = self.any_term();
        if !self.random.once_in(3) && self.make_row(primitive, &children, result) {
            return result;
        }
        self.keep_row_absent(primitive, &children);
        term
    }

    /// Prefers a term whose head has a normaliser.
    pub fn normalisation_step(&mut self) -> Proved {
        let heads: Vec<u32> = self
            .tables
            .of(Table::Normalisers)
            .iter()
            .map(|cell| cell.words[0])
            .collect();
        let raw: Vec<Proved> = self
            .proved
            .iter()
            .copied()
            .filter(|proved| {
                self.as_application(proved.right)
                    .is_some_and(|(head, _)| heads.contains(&head))
            })
            .collect();
        let inner = match self.random.pick_any(&raw) {
            Some(inner) => inner,
            None => self.any_proved(),
        };
        let pair = (inner.left, self.normal_form(inner.right));
        let proof = self.tables.normalisation(pair, inner.proof);
        self.note(proof, pair)
    }

    /// The terms that are known to equal themselves; of a counting world mostly views of integers.
    fn reflexive_terms(&mut self) -> Vec<u32> {
        let terms: Vec<u32> = self
            .global_pairs
            .iter()
            .filter(|pair| pair.0 == pair.1)
            .map(|pair| pair.0)
            .chain(
                self.proved
                    .iter()
                    .filter(|proved| proved.reflexive())
                    .map(|proved| proved.right),
            )
            .collect();
        match self.counting {
            true => self.views_of_integers(terms),
            false => terms,
        }
    }

    /// Two proofs that can be merged.
    pub fn views(&mut self) -> Option<Views> {
        let terms = self.reflexive_terms();
        let old = self.random.pick_any(&terms)?;
        let (head, mut inputs) = self.as_application(old)?;
        let old_value = inputs.pop()?;
        let fitting: Vec<u32> = terms
            .iter()
            .copied()
            .filter(|&term| {
                self.as_application(term).is_some_and(|(name, children)| {
                    name == head
                        && children.len() == inputs.len() + 1
                        && children[..inputs.len()] == inputs
                })
            })
            .collect();
        let new = self.random.pick(&fitting);
        let new_value = *self.as_application(new)?.1.last()?;
        Some(Views {
            old: self.reflexive_proof(old)?,
            new: self.reflexive_proof(new)?,
            head,
            inputs,
            old_value,
            new_value,
        })
    }

    /// A proof of a term's equality to itself: one that is there, or a fiat.
    fn reflexive_proof(&mut self, term: u32) -> Option<Proved> {
        let there: Vec<Proved> = self
            .proved
            .iter()
            .copied()
            .filter(|proved| proved.left == term && proved.right == term)
            .collect();
        if let Some(proved) = self.random.pick_any(&there) {
            return Some(proved);
        }
        let proof = self.tables.fiat((term, term));
        Some(self.note(proof, (term, term)))
    }

    /// A function name that leads to a merge, and that merge.
    fn merging_function(&mut self, head: u32) -> (u32, u32) {
        let mut first: Vec<(u32, Option<u32>)> = Vec::new();
        for cell in self.tables.of(Table::Functions) {
            if first.iter().all(|(name, _)| *name != cell.words[0]) {
                let merge = (cell.kind == 1).then(|| cell.words[1]);
                first.push((cell.words[0], merge));
            }
        }
        let merging: Vec<(u32, u32)> = first
            .iter()
            .filter_map(|&(name, merge)| merge.map(|merge| (name, merge)))
            .collect();
        if let Some(found) = self.random.pick_any(&merging) {
            return found;
        }
        let taken = |name: u32| first.iter().any(|(first, _)| *first == name);
        let mut name = head;
        while taken(name) {
            name = name.wrapping_add(1);
        }
        let function = self.function_with_merge(name);
        let cell = &self.tables.of(Table::Functions)[function as usize];
        (name, cell.words[1])
    }

    /// What a merge of these views gives: the function's name and the pairs.
    pub fn merged(&mut self, views: &Views) -> Option<(u32, Vec<Pair>)> {
        let (function, merge) = self.merging_function(views.head);
        let bindings = Bindings::from([(OLD, views.old_value), (NEW, views.new_value)]);
        let mut pairs = Vec::new();
        let value = self.evaluate(merge, &bindings, &mut pairs)?;
        let children = [&views.inputs[..], &[value]].concat();
        let view = self.application(views.head, &children);
        pairs.push((view, view));
        Some((function, pairs))
    }

    pub fn merge_step(&mut self) -> Proved {
        let Some(views) = self.views() else {
            return self.transitivity_step();
        };
        let Some((function, pairs)) = self.merged(&views) else {
            return self.transitivity_step();
        };
        let pair = match self.random.once_in(2) {
            true => self.random.pick(&pairs),
            false => *pairs.last().expect("the merged view"),
        };
        let proof = self
            .tables
            .merge_step(pair, function, views.old.proof, views.new.proof);
        self.note(proof, pair)
    }
}
