//! 7: a reference out of range, or not lower. Every cell is formed by now.

use crate::layout::{Job, Table};

/// The cell refers to a cell that is not there, or not below itself in its own table.
pub fn out_of_range(job: &Job, table: Table, number: usize) -> bool {
    let cell = job.cell(table, number);
    let words = cell.words;
    let own = number as u32;
    let beyond = |table: Table, references: &[u32]| {
        references
            .iter()
            .any(|&reference| reference >= job.sizes.count(table))
    };
    let not_lower = |references: &[u32]| references.iter().any(|&reference| reference >= own);
    match table {
        Table::Terms => cell.kind == 2 && not_lower(&words[1..]),
        Table::Expressions => match cell.kind {
            2 | 3 => not_lower(&words[1..]),
            4 => beyond(Table::Primitives, &words[..1]) || not_lower(&words[1..]),
            _ => false,
        },
        Table::Facts => beyond(Table::Expressions, words),
        Table::Actions => match cell.kind {
            0 => beyond(Table::Expressions, &words[1..]),
            _ => beyond(Table::Expressions, words),
        },
        Table::Functions => beyond(Table::Expressions, &words[1..]),
        Table::Primitives => false,
        Table::Rows => beyond(Table::Primitives, &words[..1]) || beyond(Table::Terms, &words[1..]),
        Table::Normalisers => beyond(Table::Primitives, &words[1..]),
        Table::Rules => {
            let (facts, actions) = words[2..].split_at(words[1] as usize);
            beyond(Table::Facts, facts) || beyond(Table::Actions, actions)
        }
        Table::Proofs => {
            let (claimed, rest) = words.split_at(2);
            let (proofs, terms) = proof_references(cell.kind, rest);
            beyond(Table::Terms, claimed) || not_lower(&proofs) || beyond(Table::Terms, &terms)
        }
    }
}

/// The proofs and the terms that a proof refers to beside its claimed sides.
fn proof_references(kind: u32, words: &[u32]) -> (Vec<u32>, Vec<u32>) {
    match kind {
        1 => {
            let (premises, pairs) = words[2..].split_at(words[1] as usize);
            let terms = pairs.chunks(2).map(|pair| pair[1]).collect();
            (premises.to_vec(), terms)
        }
        2 => (words[1..].to_vec(), Vec::new()),
        5 => (vec![words[0], words[2]], Vec::new()),
        _ => (words.to_vec(), Vec::new()),
    }
}
