//! Cells by what they mean; each function appends one and gives its number.

use crate::layout::Table;
use crate::limits::OPERANDS;
use crate::tables::Tables;

/// The three words of a signed 64-bit literal.
pub fn integer_words(value: i64) -> [u32; 3] {
    [2, value as u32, (value as u64 >> 32) as u32]
}

fn joined(first: &[u32], rest: &[u32]) -> Vec<u32> {
    [first, rest].concat()
}

/// Calls of up to 16 arguments over each other, down to these; the one on top.
pub fn gathered(leaves: Vec<u32>, mut call: impl FnMut(&[u32]) -> u32) -> u32 {
    let mut level = leaves;
    while level.len() > 1 {
        level = level.chunks(OPERANDS).map(&mut call).collect();
    }
    level[0]
}

impl Tables {
    pub fn term_literal(&mut self, words: [u32; 3]) -> u32 {
        self.push(Table::Terms, 0, &words)
    }

    pub fn term_integer(&mut self, value: i64) -> u32 {
        self.term_literal(integer_words(value))
    }

    pub fn term_variable(&mut self, name: u32) -> u32 {
        self.push(Table::Terms, 1, &[name])
    }

    pub fn term_application(&mut self, name: u32, children: &[u32]) -> u32 {
        self.push(Table::Terms, 2, &joined(&[name], children))
    }

    /// Applications of a name one over another, each to the one below as all its children; the last.
    pub fn term_tower(&mut self, name: u32, bottom: u32, levels: usize, width: usize) -> u32 {
        (0..levels).fold(bottom, |below, _| {
            self.term_application(name, &vec![below; width])
        })
    }

    pub fn literal(&mut self, words: [u32; 3]) -> u32 {
        self.push(Table::Expressions, 0, &words)
    }

    pub fn integer(&mut self, value: i64) -> u32 {
        self.literal(integer_words(value))
    }

    pub fn variable(&mut self, name: u32) -> u32 {
        self.push(Table::Expressions, 1, &[name])
    }

    pub fn constructor(&mut self, name: u32, arguments: &[u32]) -> u32 {
        self.push(Table::Expressions, 2, &joined(&[name], arguments))
    }

    /// Constructor calls one over another, each of the one below as all its arguments; the last.
    pub fn tower(&mut self, name: u32, bottom: u32, levels: usize, width: usize) -> u32 {
        (0..levels).fold(bottom, |below, _| {
            self.constructor(name, &vec![below; width])
        })
    }

    pub fn custom(&mut self, name: u32, arguments: &[u32]) -> u32 {
        self.push(Table::Expressions, 3, &joined(&[name], arguments))
    }

    pub fn primitive_call(&mut self, primitive: u32, arguments: &[u32]) -> u32 {
        self.push(Table::Expressions, 4, &joined(&[primitive], arguments))
    }

    pub fn equality(&mut self, left: u32, right: u32) -> u32 {
        self.push(Table::Facts, 0, &[left, right])
    }

    pub fn bare(&mut self, expression: u32) -> u32 {
        self.push(Table::Facts, 1, &[expression])
    }

    pub fn let_action(&mut self, name: u32, expression: u32) -> u32 {
        self.push(Table::Actions, 0, &[name, expression])
    }

    pub fn union_action(&mut self, left: u32, right: u32) -> u32 {
        self.push(Table::Actions, 1, &[left, right])
    }

    /// The call has the value as its last argument.
    pub fn set_action(&mut self, call: u32) -> u32 {
        self.push(Table::Actions, 2, &[call])
    }

    pub fn expression_action(&mut self, expression: u32) -> u32 {
        self.push(Table::Actions, 3, &[expression])
    }

    pub fn panic_action(&mut self) -> u32 {
        self.push(Table::Actions, 4, &[])
    }

    pub fn change_action(&mut self) -> u32 {
        self.push(Table::Actions, 5, &[])
    }

    pub fn function_without_merge(&mut self, name: u32) -> u32 {
        self.push(Table::Functions, 0, &[name])
    }

    pub fn function(&mut self, name: u32, merge: u32) -> u32 {
        self.push(Table::Functions, 1, &[name, merge])
    }

    /// Kind: 0 to 3, plus 1 with a validator, plus 2 with a container as output; 4 to 8 compute
    /// with integers.
    pub fn primitive(&mut self, kind: u32, name: u32) -> u32 {
        self.push(Table::Primitives, kind, &[name])
    }

    /// Of a primitive of kind 1 or 3.
    pub fn row(&mut self, primitive: u32, result: u32, arguments: &[u32]) -> u32 {
        self.push(Table::Rows, 0, &joined(&[primitive, result], arguments))
    }

    /// By a primitive of kind 1 or 3.
    pub fn normaliser(&mut self, head: u32, primitive: u32) -> u32 {
        self.push(Table::Normalisers, 0, &[head, primitive])
    }

    pub fn rule(&mut self, name: u32, facts: &[u32], actions: &[u32]) -> u32 {
        let mut words = vec![name, facts.len() as u32];
        words.extend(facts);
        words.extend(actions);
        self.push(Table::Rules, 0, &words)
    }

    fn proof(&mut self, kind: u32, claimed: (u32, u32), rest: &[u32]) -> u32 {
        let words = joined(&[claimed.0, claimed.1], rest);
        self.push(Table::Proofs, kind, &words)
    }

    pub fn fiat(&mut self, claimed: (u32, u32)) -> u32 {
        self.proof(0, claimed, &[])
    }

    pub fn rule_step(
        &mut self,
        claimed: (u32, u32),
        name: u32,
        premises: &[u32],
        pairs: &[(u32, u32)],
    ) -> u32 {
        let mut rest = vec![name, premises.len() as u32];
        rest.extend(premises);
        rest.extend(pairs.iter().flat_map(|&(name, term)| [name, term]));
        self.proof(1, claimed, &rest)
    }

    pub fn merge_step(&mut self, claimed: (u32, u32), function: u32, old: u32, new: u32) -> u32 {
        self.proof(2, claimed, &[function, old, new])
    }

    pub fn transitivity(&mut self, claimed: (u32, u32), left: u32, right: u32) -> u32 {
        self.proof(3, claimed, &[left, right])
    }

    pub fn symmetry(&mut self, claimed: (u32, u32), proof: u32) -> u32 {
        self.proof(4, claimed, &[proof])
    }

    pub fn congruence(&mut self, claimed: (u32, u32), base: u32, index: u32, child: u32) -> u32 {
        self.proof(5, claimed, &[base, index, child])
    }

    pub fn normalisation(&mut self, claimed: (u32, u32), proof: u32) -> u32 {
        self.proof(6, claimed, &[proof])
    }

    pub fn eval(&mut self, claimed: (u32, u32)) -> u32 {
        self.proof(7, claimed, &[])
    }
}
