//! Jobs whose terms have one slot of the index: found by taking the mix back, step by step, from that slot
//! to a word that is free. Names and rows that have one slot of their table.

use std::collections::{BTreeMap, BTreeSet};
use std::iter;
use std::ops::RangeInclusive;

use generator::extremes::{F, RULE};
use job::build::gathered;
use job::limits::CELLS;
use job::{OwnedCell, Table, Tables};

use crate::index_model::Mix;

/// The number of the literal 1, as a term and as an expression.
const ONE: u32 = 0;
/// The names that document 01 gives a meaning.
const RESERVED: u32 = 4;

/// What stands for the kind in the mix of a name or of a row.
const TABLE: u32 = 0;

/// Words that give terms the mixes of one slot, each another.
struct Aimed {
    mix: Mix,
    mixes: RangeInclusive<u32>,
}

impl Aimed {
    /// At the last of up to 2^17 slots, where the lent word is 0.
    fn at_last_slot() -> Aimed {
        let slots = 1 << 17;
        Aimed::at(0, slots, slots - 1)
    }

    /// At one of so many slots, a power of two and 2^32 at most, for a lent word.
    fn at(word: u32, slots: usize, slot: usize) -> Aimed {
        let each = (1u64 << 32) / slots as u64;
        let first = slot as u64 * each;
        Aimed {
            mix: Mix::new(word),
            mixes: first as u32..=(first + each - 1) as u32,
        }
    }

    /// The next word that a term may have between those before and those behind.
    fn word(&mut self, kind: u32, before: &[u32], behind: &[u32]) -> Option<u32> {
        let Aimed { mix, mixes } = self;
        mixes.find_map(|wanted| mix.word_for(kind, before, behind, wanted))
    }

    fn expect(&mut self, kind: u32, before: &[u32], behind: &[u32]) -> u32 {
        self.word(kind, before, behind).expect("a mix that is left")
    }
}

/// Terms of one slot where the lent word is 0: integers, variables, applications of nothing and of a term;
/// and a fiat.
pub fn terms(count: u32) -> Tables {
    let mut shapes = [(); 4].map(|()| Aimed::at_last_slot());
    let mut tables = Tables::default();
    for number in 0..count {
        let aimed = &mut shapes[number as usize % 4];
        match number % 4 {
            0 => {
                let high = aimed.expect(0, &[2, number], &[]);
                tables.term_literal([2, number, high])
            }
            1 => tables.term_variable(aimed.expect(1, &[], &[])),
            2 => tables.term_application(aimed.expect(2, &[], &[]), &[]),
            _ => {
                let below = [number - 1];
                tables.term_application(aimed.expect(2, &[], &below), &below)
            }
        };
    }
    tables.fiat((0, 0));
    tables
}

/// Rule steps that look calls up four times, whose terms have one slot where the lent word is 0: the check
/// adds them.
pub fn added_calls(calls: usize, steps: usize) -> Tables {
    let mut aimed = Aimed::at_last_slot();
    let names: Vec<u32> = (0..calls).map(|_| aimed.expect(2, &[], &[])).collect();
    let mut tables = Tables::default();
    tables.term_integer(1);
    climb(&mut tables, &names, 4, steps);
    tables
}

/// Rule steps that look calls up, which stand last among so many terms, all but the first of that slot.
pub fn last_calls(terms: usize, calls: usize, steps: usize) -> Tables {
    let mut aimed = Aimed::at_last_slot();
    let mut tables = Tables::default();
    tables.term_integer(1);
    for _ in 1..terms - calls {
        tables.term_variable(aimed.expect(1, &[], &[]));
    }
    let mut aimed = Aimed::at_last_slot();
    let names: Vec<u32> = (0..calls).map(|_| aimed.expect(2, &[], &[])).collect();
    for &name in &names {
        tables.term_application(name, &[]);
    }
    climb(&mut tables, &names, 1, steps);
    tables
}

/// Steps one under another by a rule whose head has a call of nothing for each name under its calls, and is
/// evaluated so many times.
fn climb(tables: &mut Tables, names: &[u32], times: usize, steps: usize) {
    let one = tables.integer(1);
    let fact = tables.bare(one);
    let leaves = names.iter().map(|&name| tables.constructor(name, &[]));
    let leaves = leaves.collect();
    let top = gathered(leaves, |arguments| tables.constructor(F, arguments));
    let claimed = tables.expression_action(one);
    let calls = tables.expression_action(top);
    let mut actions = vec![calls; times];
    actions.push(claimed);
    tables.rule(RULE, &[fact], &actions);
    let mut below = tables.fiat((ONE, ONE));
    for _ in 0..steps {
        below = tables.rule_step((ONE, ONE), RULE, &[below], &[]);
    }
}

/// As many names as a table may have cells, which have one slot of it where the lent word is 0.
pub fn table_names() -> Vec<u32> {
    let slots = CELLS as usize;
    let mut aimed = Aimed::at(0, slots, slots - 1);
    let names = iter::from_fn(|| aimed.word(TABLE, &[], &[]));
    let names = names.filter(|&name| name >= RESERVED);
    names.take(slots).collect()
}

/// So many pairs of terms below a number that have one slot among as many for the word 0, as the last two arguments
/// of rows of primitive 0 that have these before.
pub fn row_ends(before: &[u32], count: usize, terms: u32) -> Vec<[u32; 2]> {
    let mix = Mix::new(0);
    let mut arguments = [before, &[0, 0]].concat();
    let aimed = |ends: &[u32; 2]| {
        arguments[before.len()..].copy_from_slice(ends);
        mix.key_slot(0, &arguments, count) == count - 1
    };
    let ends = (0..terms).flat_map(|first| (0..terms).map(move |last| [first, last]));
    ends.filter(aimed).take(count).collect()
}

/// The job with other names, so that the first term of each has this slot for a lent word; none where it
/// has no formed ends. Names without a term, and those with a meaning, stay.
pub fn renamed(job: &[u32], word: u32, slots: usize, slot: usize) -> Option<Vec<u32>> {
    let mut tables = Tables::read(job)?;
    let new = new_names(&tables, Aimed::at(word, slots, slot));
    for table in Table::ALL {
        for cell in tables.of_mut(table) {
            for place in name_places(table, cell) {
                let name = &mut cell.words[place];
                *name = new.get(name).copied().unwrap_or(*name);
            }
        }
    }
    Some(tables.words())
}

/// For each name of a term another one that the job does not have, aimed by the first such term.
fn new_names(tables: &Tables, mut aimed: Aimed) -> BTreeMap<u32, u32> {
    let mut used: BTreeSet<u32> = (0..RESERVED).chain(names(tables)).collect();
    let mut new = BTreeMap::new();
    for cell in tables.of(Table::Terms) {
        let ([name, children @ ..], 1 | 2) = (&cell.words[..], cell.kind) else {
            continue;
        };
        if *name < RESERVED || new.contains_key(name) {
            continue;
        }
        let mut words = iter::from_fn(|| aimed.word(cell.kind, &[], children));
        if let Some(other) = words.find(|&other| used.insert(other)) {
            new.insert(*name, other);
        }
    }
    new
}

/// All names of a job.
fn names(tables: &Tables) -> Vec<u32> {
    let mut names = Vec::new();
    for table in Table::ALL {
        for cell in tables.of(table) {
            let places = name_places(table, cell).into_iter();
            names.extend(places.map(|place| cell.words[place]));
        }
    }
    names
}

/// The places of the names among a cell's words, as far as these go.
fn name_places(table: Table, cell: &OwnedCell) -> Vec<usize> {
    let pairs = 4 + cell.words.get(3).copied().unwrap_or(0) as usize;
    let is_name = |&place: &usize| match (table, cell.kind) {
        (Table::Terms, 1 | 2) | (Table::Expressions, 1..=3) | (Table::Actions, 0) => place == 0,
        (Table::Functions | Table::Primitives | Table::Normalisers | Table::Rules, _) => place == 0,
        (Table::Proofs, 1) => place == 2 || place >= pairs && (place - pairs).is_multiple_of(2),
        (Table::Proofs, 2) => place == 2,
        _ => false,
    };
    (0..cell.words.len()).filter(is_name).collect()
}
