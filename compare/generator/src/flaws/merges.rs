//! Flaws in merge steps.

use super::Flawed;
use crate::names::{NEW, OLD};
use crate::steps::Views;
use crate::world::{Pair, Proved, World};

impl World {
    /// Views that can be merged; made if there are none.
    fn some_views(&mut self) -> Views {
        if let Some(views) = self.views() {
            return views;
        }
        let head = self.any_head();
        let view = self.proved_application(head, 2);
        let (_, children) = self.as_application(view.right).expect("a view");
        Views {
            head,
            inputs: children[..1].to_vec(),
            old: view,
            new: view,
            old_value: children[1],
            new_value: children[1],
        }
    }

    /// 34 to 39 and 43.
    pub(super) fn wrong_merge(&mut self, number: u32) -> Flawed {
        let views = self.some_views();
        let other = self.other_view(number, &views);
        let (mut function, pairs) = match self.merged(&views) {
            Some(merged) => merged,
            None => (views.head, vec![(views.old.left, views.old.right)]),
        };
        let mut claimed = self.random.pick(&pairs);
        match number {
            38 => claimed = self.pair_beside_merge(claimed, &views),
            43 => function = self.missing_function(),
            _ => {}
        }
        let (old, new) = match self.random.once_in(2) {
            true => (other.unwrap_or(views.old), views.new),
            false => (views.old, other.unwrap_or(views.new)),
        };
        let proof = self
            .tables
            .merge_step(claimed, function, old.proof, new.proof);
        self.flawed(proof, claimed)
    }

    /// A pair that holds, but hardly by the merge; or any other pair.
    fn pair_beside_merge(&mut self, pair: Pair, views: &Views) -> Pair {
        let view = self.random.pick(&[views.old.right, views.new.right]);
        match self.random.below(4) {
            0 => (view, view),
            1 => {
                let pairs = self.global_pairs.clone();
                self.random.pick_any(&pairs).unwrap_or((view, view))
            }
            _ => self.other_pair(pair),
        }
    }

    /// What stands in place of one of the views.
    fn other_view(&mut self, number: u32, views: &Views) -> Option<Proved> {
        let inputs = views.inputs.len();
        match number {
            34 => {
                let head = views.head.wrapping_add(1);
                let children = self.random.below(3);
                Some(self.proved_application(head, children))
            }
            35 => Some(self.proved_application(views.head, 0)),
            36 if inputs > 0 && self.random.once_in(2) => Some(self.other_inputs(views)),
            36 if self.random.once_in(2) => {
                Some(self.proved_application(views.head, inputs.min(14) + 2))
            }
            36 => Some(self.proved_application(views.head, inputs.max(1))),
            37 => Some(self.literal_fiat()),
            39 if self.random.once_in(2) => {
                let view = views.old.right;
                let other = self.other_term(view);
                let pair = self.random.pick(&[(view, other), (other, view)]);
                Some(self.assumed(pair))
            }
            39 => Some(self.proved_unequal()),
            _ => None,
        }
    }

    /// A view with as many inputs, one of them another.
    fn other_inputs(&mut self, views: &Views) -> Proved {
        let mut children = views.inputs.clone();
        let place = self.random.below(children.len());
        children[place] = self.other_term(children[place]);
        children.push(views.old_value);
        let view = self.application(views.head, &children);
        self.assumed((view, view))
    }

    /// A name without function, or whose first function has no merge.
    fn missing_function(&mut self) -> u32 {
        let name = 1_000_000;
        match self.random.below(3) {
            0 => {}
            1 => {
                self.tables.function_without_merge(name);
            }
            _ => {
                self.tables.function_without_merge(name);
                self.function_with_merge(name);
            }
        }
        name
    }

    /// 45, 46 and 51 inside a merge.
    pub(super) fn flawed_merge_expression(&mut self, number: u32) -> Flawed {
        let views = self.some_views();
        let unbound = match self.random.once_in(2) {
            true => 77,
            false => self
                .globals
                .keys()
                .copied()
                .find(|&name| name > 1)
                .unwrap_or(2),
        };
        let bound = [(OLD, views.old_value), (NEW, views.new_value)];
        self.note_integers(&bound.into());
        let merge = self.flawed_expression(number, &[OLD, NEW], unbound);
        let name = 2_000_000;
        self.tables.function(name, merge);
        let claimed = (views.old.left, views.old.right);
        let proof = self
            .tables
            .merge_step(claimed, name, views.old.proof, views.new.proof);
        self.flawed(proof, claimed)
    }
}
