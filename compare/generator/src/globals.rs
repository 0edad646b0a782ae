//! The start of a world: primitives, global actions, functions, normalisers, fiats.

use job::Table;

use crate::flaws::AIMED_IN_GLOBALS;
use crate::names::{NEW, OLD};
use crate::random::Random;
use crate::setting::Setting;
use crate::world::{Pair, World};

impl World {
    /// A world with globals and the fiats that they give.
    pub fn start(random: Random, setting: Setting) -> World {
        World::start_with(random, setting, false)
    }

    /// A world whose globals have no value, aimed at one of their numbers.
    pub fn start_with_flaw(random: Random, setting: Setting) -> World {
        World::start_with(random, setting, true)
    }

    fn start_with(random: Random, setting: Setting, flawed: bool) -> World {
        let counting = setting.counting;
        let mut world = World::empty(random, setting);
        for _ in 0..world.random.below(4) {
            let kind = world.random.pick(&[0, 1, 1, 2, 3, 3]);
            world.new_primitive(kind);
        }
        if counting {
            world.counting_primitives();
        }
        if world.random.once_in(3) {
            world.variable_terms();
        }
        for _ in 0..world.random.below(6) {
            world.global_action();
        }
        if counting || world.random.once_in(2) {
            world.global_views();
        }
        if flawed {
            world.flawed_global();
        }
        for _ in 0..world.random.below(3) + usize::from(counting) {
            world.any_function();
        }
        for _ in 0..world.random.below(3) {
            world.any_normaliser();
        }
        for _ in 0..world.random.between(1, 4) {
            world.any_fiat();
        }
        world
    }

    /// Terms that are variables, some with the name of a head.
    fn variable_terms(&mut self) {
        let head = self.any_head();
        let name = self.names.variable(0);
        self.term(1, vec![head]);
        self.term(1, vec![name]);
    }

    /// Appends a global action and notes what it gives.
    fn global_action(&mut self) {
        let names: Vec<u32> = self.globals.keys().copied().collect();
        let mut bindings = self.globals.clone();
        let mut pairs = Vec::new();
        let before = self.tables.count(Table::Actions);
        let action = self.action(&names, &mut bindings, &mut pairs);
        if action.is_some() {
            self.tables.globals = self.tables.count(Table::Actions);
            self.globals = bindings;
            self.global_pairs.extend(pairs);
        } else {
            self.tables.of_mut(Table::Actions).truncate(before as usize);
        }
    }

    /// A global action that is to be refused, maybe followed by others.
    fn flawed_global(&mut self) {
        let number = match self.counting && self.random.once_in(2) {
            true => 46,
            false => self.random.pick(&AIMED_IN_GLOBALS),
        };
        let names: Vec<u32> = self.globals.keys().copied().collect();
        let unbound = self.names.variable(7);
        self.note_integers(&self.globals.clone());
        let expression = self.flawed_expression(number, &names, unbound);
        self.action_with(expression);
        self.tables.globals = self.tables.count(Table::Actions);
        for _ in 0..self.random.below(2) {
            self.global_action();
        }
    }

    /// Appends an action that has a value under these bindings.
    pub fn action(
        &mut self,
        names: &[u32],
        bindings: &mut crate::world::Bindings,
        pairs: &mut Vec<Pair>,
    ) -> Option<u32> {
        self.note_integers(bindings);
        match self.random.below(12) {
            0 => Some(self.tables.panic_action()),
            1 => Some(self.tables.change_action()),
            2..=4 => {
                let expression = self.new_or_shared(names, 2);
                let value = self.evaluate(expression, bindings, pairs)?;
                let place = self.random.below(6);
                let name = self.names.variable(place);
                bindings.insert(name, value);
                Some(self.tables.let_action(name, expression))
            }
            5..=7 => {
                let left = self.new_or_shared(names, 2);
                let right = self.new_or_shared(names, 2);
                let left_value = self.evaluate(left, bindings, pairs)?;
                let right_value = self.evaluate(right, bindings, pairs)?;
                pairs.extend([(left_value, right_value), (right_value, left_value)]);
                Some(self.tables.union_action(left, right))
            }
            8..=9 => {
                let call = self.set_call(names);
                self.evaluate(call, bindings, pairs)?;
                Some(self.tables.set_action(call))
            }
            _ => {
                let expression = self.new_or_shared(names, 3);
                self.evaluate(expression, bindings, pairs)?;
                Some(self.tables.expression_action(expression))
            }
        }
    }

    /// A new expression, or one that stands elsewhere too.
    fn new_or_shared(&mut self, names: &[u32], depth: usize) -> u32 {
        match self.shared_expression() {
            Some(expression) if self.random.once_in(4) => expression,
            _ => self.head_expression(names, depth),
        }
    }

    /// A call with at least one argument; seldom of a primitive.
    fn set_call(&mut self, names: &[u32]) -> u32 {
        if self.counting && self.random.once_in(4) {
            return self.count_call(names, 2);
        }
        let with_rows = self.primitives(&[1, 3]);
        let (kind, head) = match self.random.pick_any(&with_rows) {
            Some(primitive) if self.random.once_in(8) => (4, primitive),
            _ => (self.random.pick(&[2, 3, 3]), self.any_head()),
        };
        let mut words = vec![head];
        for _ in 0..self.random.between(1, 3) {
            words.push(self.head_expression(names, 1));
        }
        self.expression(kind, &words)
    }

    /// Two or three views of one head with equal inputs, to be merged later.
    fn global_views(&mut self) {
        let head = self.any_head();
        let inputs: Vec<u32> = (0..self.random.below(3))
            .map(|_| self.literal_expression())
            .collect();
        for _ in 0..self.random.between(2, 3) {
            let value = match self.counting && !self.random.once_in(4) {
                true => self.count_expression(&[], 1),
                false => self.head_expression(&[], 1),
            };
            let call = self.expression(3, &[&[head], &inputs[..], &[value]].concat());
            let mut pairs = Vec::new();
            let globals = self.globals.clone();
            if self.evaluate(call, &globals, &mut pairs).is_some() {
                self.tables.set_action(call);
                self.tables.globals = self.tables.count(Table::Actions);
                self.global_pairs.extend(pairs);
            }
        }
    }

    fn any_function(&mut self) {
        let name = self.any_head();
        match self.random.once_in(4) {
            true => self.tables.function_without_merge(name),
            false => self.function_with_merge(name),
        };
    }

    pub fn function_with_merge(&mut self, name: u32) -> u32 {
        let merge = match self.counting && !self.random.once_in(4) {
            true => self.count_merge(),
            false => self.head_expression(&[OLD, NEW], 2),
        };
        self.tables.function(name, merge)
    }

    fn any_normaliser(&mut self) {
        let head = self.any_head();
        let taken = self
            .tables
            .of(Table::Normalisers)
            .iter()
            .any(|cell| cell.words[0] == head);
        if !taken {
            let primitive = self.some_primitive(&[1, 3]);
            self.tables.normaliser(head, primitive);
        }
    }

    /// A fiat of a global pair, or of a literal.
    pub fn any_fiat(&mut self) {
        let pairs = self.global_pairs.clone();
        match self.random.pick_any(&pairs) {
            Some(pair) if !self.random.once_in(6) => {
                let proof = self.tables.fiat(pair);
                self.note(proof, pair);
            }
            _ => {
                self.literal_fiat();
            }
        }
    }
}
