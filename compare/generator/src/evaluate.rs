//! Expressions, and what they evaluate to where everything has a value.

use job::{Table, primitives};

use crate::world::{Bindings, Pair, World};

impl World {
    /// The value of an expression. Rows that are missing are made. The pairs of evaluation
    /// are appended. `None` where there is no value.
    pub fn evaluate(
        &mut self,
        expression: u32,
        bindings: &Bindings,
        pairs: &mut Vec<Pair>,
    ) -> Option<u32> {
        let cell = self.tables.of(Table::Expressions)[expression as usize].clone();
        let value = match cell.kind {
            0 => self.term(0, cell.words),
            1 => *bindings.get(&cell.words[0])?,
            kind => {
                let mut values = Vec::new();
                for &argument in &cell.words[1..] {
                    values.push(self.evaluate(argument, bindings, pairs)?);
                }
                match kind {
                    4 => self.primitive_value(cell.words[0], &values)?,
                    _ => self.application(cell.words[0], &values),
                }
            }
        };
        let subterms = self.subterms(value);
        pairs.extend(subterms.iter().map(|&term| (term, term)));
        Some(value)
    }

    fn primitive_value(&mut self, primitive: u32, arguments: &[u32]) -> Option<u32> {
        let kind = self.primitive_kind(primitive);
        if primitives::counts(kind) {
            return self.count(kind, arguments);
        }
        if !primitives::looks_rows_up(kind) {
            return None;
        }
        if let Some(result) = self.row(primitive, arguments) {
            return Some(result);
        }
        let result = match self.random.once_in(3) {
            true => self.any_literal_term(),
            false => self.any_term(),
        };
        self.make_row(primitive, arguments, result)
            .then_some(result)
    }

    /// How many arguments a call has: mostly few, seldom as many as are allowed.
    pub fn argument_count(&mut self) -> usize {
        match self.random.below(60) {
            0 => job::limits::OPERANDS,
            1 => self.random.between(4, job::limits::OPERANDS),
            _ => self.random.below(4),
        }
    }

    pub fn literal_expression(&mut self) -> u32 {
        let words = self.any_literal();
        self.expression(0, &words)
    }

    /// A literal, or a variable of these names.
    pub fn leaf(&mut self, names: &[u32]) -> u32 {
        match self.random.pick_any(names) {
            Some(name) if !self.random.once_in(3) => self.expression(1, &[name]),
            _ => self.literal_expression(),
        }
    }

    /// An expression as heads, globals and merges have them: anything with a validator.
    pub fn head_expression(&mut self, names: &[u32], depth: usize) -> u32 {
        if depth == 0 || self.random.once_in(4) {
            return self.leaf(names);
        }
        if self.counting && self.random.once_in(3) {
            return self.count_expression(names, depth);
        }
        let kind = match self.random.below(6) {
            0 => 3,
            1 => 4,
            _ => 2,
        };
        let with_rows = self.primitives(&[1, 3]);
        if kind == 4 && with_rows.is_empty() {
            return self.leaf(names);
        }
        let count = self.argument_count();
        let arguments = self.head_arguments(names, depth, count);
        let name = match kind {
            4 => self.random.pick(&with_rows),
            _ => self.any_head(),
        };
        self.expression(kind, &[&[name], &arguments[..]].concat())
    }

    fn head_arguments(&mut self, names: &[u32], depth: usize, count: usize) -> Vec<u32> {
        let mut arguments = Vec::new();
        let first = self.head_expression(names, depth - 1);
        for _ in 0..count {
            let again = count > 4 && !self.random.once_in(4);
            arguments.push(match again {
                true => first,
                false => self.head_expression(names, depth - 1),
            });
        }
        arguments
    }

    pub fn any_head(&mut self) -> u32 {
        let place = self.random.below(5);
        self.names.head(place)
    }

    /// An argument that a primitive call in a fact may have.
    pub fn primitive_argument(&mut self, names: &[u32], depth: usize) -> u32 {
        if self.counting && self.random.once_in(3) {
            return self.count_expression(names, depth);
        }
        let with_rows = self.primitives(&[1, 3]);
        if depth == 0 || with_rows.is_empty() || !self.random.once_in(4) {
            return self.leaf(names);
        }
        let primitive = self.random.pick(&with_rows);
        let mut words = vec![primitive];
        for _ in 0..self.random.below(3) {
            words.push(self.primitive_argument(names, depth - 1));
        }
        self.expression(4, &words)
    }

    /// A call of this primitive on such arguments.
    pub fn fact_call(&mut self, primitive: u32, names: &[u32]) -> u32 {
        let mut words = vec![primitive];
        for _ in 0..self.argument_count() {
            words.push(self.primitive_argument(names, 1));
        }
        self.expression(4, &words)
    }

    /// Calls of all kinds in each other, in normal form or not.
    pub fn wild_expression(&mut self, names: &[u32], depth: usize) -> u32 {
        if depth == 0 || self.random.once_in(5) {
            return self.leaf(names);
        }
        let kind = self.random.pick(&[2, 3, 4, 4]);
        let name = match kind {
            4 => self.primitive_of_any_kind(),
            _ => self.any_head(),
        };
        let mut words = vec![name];
        for _ in 0..self.random.between(1, 3) {
            words.push(self.wild_expression(names, depth - 1));
        }
        self.expression(kind, &words)
    }
}
