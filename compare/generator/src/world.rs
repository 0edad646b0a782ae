//! A job under construction, and what is known to hold in it.

use std::collections::{BTreeMap, HashMap, HashSet};

use job::build::integer_words;
use job::{Table, Tables};

use crate::names::Names;
use crate::random::Random;
use crate::rules::Plan;
use crate::setting::Setting;

/// From names to terms.
pub type Bindings = BTreeMap<u32, u32>;
/// A claimed or known pair of terms.
pub type Pair = (u32, u32);

/// A proof that holds, and what it proves.
#[derive(Clone, Copy, Debug)]
pub struct Proved {
    pub proof: u32,
    pub left: u32,
    pub right: u32,
}

impl Proved {
    pub fn reflexive(&self) -> bool {
        self.left == self.right
    }
}

/// The place of the assuming rule's name, past those of all other rules.
const ASSUMPTION: usize = 4_000;

pub struct World {
    pub random: Random,
    pub names: Names,
    pub tables: Tables,
    pub globals: Bindings,
    pub global_pairs: Vec<Pair>,
    pub proved: Vec<Proved>,
    /// The rules that are there, each with an instance that holds.
    pub plans: Vec<Plan>,
    terms: HashMap<(u32, Vec<u32>), u32>,
    rows: HashMap<(u32, Vec<u32>), u32>,
    /// Rows that must not be made: something holds because they are missing.
    absent_rows: HashSet<(u32, Vec<u32>)>,
    /// The nodes of each expression's tree.
    nodes: Vec<usize>,
    /// The name of the rule by which anything is assumed.
    assumption: Option<u32>,
    /// There are primitives of kinds 4 to 8, and integers at their extremes.
    pub counting: bool,
    /// Rules have bare container conditions, each with a value unless it is a flaw.
    pub conditions: bool,
    /// The names that were bound to integers when last looked at; of a counting world only.
    pub integer_names: Vec<u32>,
}

impl World {
    pub fn empty(mut random: Random, setting: Setting) -> World {
        let names = Names::any(&mut random);
        World {
            random,
            names,
            tables: Tables::default(),
            globals: Bindings::new(),
            global_pairs: Vec::new(),
            proved: Vec::new(),
            plans: Vec::new(),
            terms: HashMap::new(),
            rows: HashMap::new(),
            absent_rows: HashSet::new(),
            nodes: Vec::new(),
            assumption: None,
            counting: setting.counting,
            conditions: setting.conditions,
            integer_names: Vec::new(),
        }
    }

    /// The number of a term, which enters the job if it is not there.
    pub fn term(&mut self, kind: u32, words: Vec<u32>) -> u32 {
        let key = (kind, words);
        if let Some(&number) = self.terms.get(&key) {
            return number;
        }
        let number = self.tables.push(Table::Terms, kind, &key.1);
        self.terms.insert(key, number);
        number
    }

    pub fn application(&mut self, name: u32, children: &[u32]) -> u32 {
        let mut words = vec![name];
        words.extend(children);
        self.term(2, words)
    }

    /// Head and children of an application.
    pub fn as_application(&self, term: u32) -> Option<(u32, Vec<u32>)> {
        let cell = &self.tables.of(Table::Terms)[term as usize];
        match cell.kind {
            2 => Some((cell.words[0], cell.words[1..].to_vec())),
            _ => None,
        }
    }

    pub fn is_literal(&self, term: u32) -> bool {
        self.tables.of(Table::Terms)[term as usize].kind == 0
    }

    /// Any term that is there, or a new literal.
    pub fn any_term(&mut self) -> u32 {
        match self.tables.count(Table::Terms) {
            0 => self.any_literal_term(),
            terms => self.random.below(terms as usize) as u32,
        }
    }

    pub fn any_literal_term(&mut self) -> u32 {
        let words = self.any_literal();
        self.term(0, words.to_vec())
    }

    /// A term other than the given one.
    pub fn other_term(&mut self, than: u32) -> u32 {
        if let Some(near) = self.near_integer(than) {
            return near;
        }
        loop {
            let term = match self.random.once_in(3) {
                true => self.any_literal_term(),
                false => self.any_term(),
            };
            if term != than {
                return term;
            }
            self.term(1, vec![7]);
            self.term(1, vec![8]);
        }
    }

    pub fn any_literal(&mut self) -> [u32; 3] {
        if self.counting && !self.random.once_in(3) {
            return integer_words(self.any_integer());
        }
        match self.random.below(12) {
            0 => [0, 0, 0],
            1 => [1, self.random.below(2) as u32, 0],
            2 => [3, self.random.below(4) as u32, 0],
            3 => [3, self.random.word() as u32, 0],
            4 => [2, self.random.word() as u32, self.random.word() as u32],
            5 => [2, u32::MAX, u32::MAX],
            _ => [2, self.random.below(6) as u32, 0],
        }
    }

    /// The term and all its subterms, each once.
    pub fn subterms(&self, term: u32) -> Vec<u32> {
        let mut found = vec![term];
        let mut next = 0;
        while next < found.len() {
            if let Some((_, children)) = self.as_application(found[next]) {
                for child in children {
                    if !found.contains(&child) {
                        found.push(child);
                    }
                }
            }
            next += 1;
        }
        found
    }

    /// Appends an expression and notes the size of its tree.
    pub fn expression(&mut self, kind: u32, words: &[u32]) -> u32 {
        let inside: usize = match kind {
            2..=4 => words[1..]
                .iter()
                .map(|&part| self.nodes[part as usize])
                .sum(),
            _ => 0,
        };
        self.nodes.push(inside + 1);
        self.tables.push(Table::Expressions, kind, words)
    }

    /// An earlier expression with a small tree.
    pub fn shared_expression(&mut self) -> Option<u32> {
        let count = self.nodes.len();
        if count == 0 {
            return None;
        }
        let expression = self.random.below(count);
        (self.nodes[expression] <= 40).then_some(expression as u32)
    }

    /// The numbers of the primitives of these kinds.
    pub fn primitives(&self, kinds: &[u32]) -> Vec<u32> {
        let cells = self.tables.of(Table::Primitives);
        (0..cells.len() as u32)
            .filter(|&number| kinds.contains(&cells[number as usize].kind))
            .collect()
    }

    pub fn new_primitive(&mut self, kind: u32) -> u32 {
        let place = self.tables.count(Table::Primitives) as usize;
        let name = match self.random.once_in(6) {
            true => self.names.primitive(0),
            false => self.names.primitive(place),
        };
        self.tables.primitive(kind, name)
    }

    /// A primitive of one of these kinds; made if there is none.
    pub fn some_primitive(&mut self, kinds: &[u32]) -> u32 {
        let there = self.primitives(kinds);
        match self.random.pick_any(&there) {
            Some(primitive) => primitive,
            None => {
                let kind = self.random.pick(kinds);
                self.new_primitive(kind)
            }
        }
    }

    pub fn row(&self, primitive: u32, arguments: &[u32]) -> Option<u32> {
        self.rows.get(&(primitive, arguments.to_vec())).copied()
    }

    /// Makes a row, unless there is one or must not be one.
    pub fn make_row(&mut self, primitive: u32, arguments: &[u32], result: u32) -> bool {
        let key = (primitive, arguments.to_vec());
        if self.rows.contains_key(&key)
            || self.absent_rows.contains(&key)
            || arguments.len() > job::limits::OPERANDS
        {
            return false;
        }
        self.tables.row(primitive, result, arguments);
        self.rows.insert(key, result);
        true
    }

    /// No row for these arguments from now on.
    pub fn keep_row_absent(&mut self, primitive: u32, arguments: &[u32]) {
        self.absent_rows.insert((primitive, arguments.to_vec()));
    }

    pub fn note(&mut self, proof: u32, pair: Pair) -> Proved {
        let proved = Proved {
            proof,
            left: pair.0,
            right: pair.1,
        };
        self.proved.push(proved);
        proved
    }

    /// Any proof that holds; a literal's fiat if there is none.
    pub fn any_proved(&mut self) -> Proved {
        match self.random.pick_any(&self.proved.clone()) {
            Some(proved) => proved,
            None => self.literal_fiat(),
        }
    }

    pub fn literal_fiat(&mut self) -> Proved {
        let term = self.any_literal_term();
        let proof = self.tables.fiat((term, term));
        self.note(proof, (term, term))
    }

    /// A proof of any pair, by a rule without facts whose head unites two variables.
    pub fn assumed(&mut self, pair: Pair) -> Proved {
        let names = [self.names.variable(50), self.names.variable(51)];
        let rule = match self.assumption {
            Some(rule) => rule,
            None => {
                let rule = self.names.rule(ASSUMPTION);
                let sides = names.map(|name| self.expression(1, &[name]));
                let action = self.tables.union_action(sides[0], sides[1]);
                self.tables.rule(rule, &[], &[action]);
                self.assumption = Some(rule);
                rule
            }
        };
        let pairs = [(names[0], pair.0), (names[1], pair.1)];
        let proof = self.tables.rule_step(pair, rule, &[], &pairs);
        self.note(proof, pair)
    }

    pub fn proof_count(&self) -> u32 {
        self.tables.count(Table::Proofs)
    }
}
