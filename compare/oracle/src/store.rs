//! Terms and literals between words and the text's types.

use job::Cell;

use crate::generic_ast::Literal;
use crate::names;
use crate::termdag::{Term, TermDag, TermId};

pub fn literal(words: &[u32]) -> Literal {
    let (low, high) = (words[1], words[2]);
    match words[0] {
        0 => Literal::Unit,
        1 => Literal::Bool(low == 1),
        2 => Literal::Int((u64::from(high) << 32 | u64::from(low)) as i64),
        _ => Literal::String(low.to_string()),
    }
}

fn literal_words(literal: &Literal) -> [u32; 3] {
    match literal {
        Literal::Unit => [0, 0, 0],
        Literal::Bool(value) => [1, u32::from(*value), 0],
        Literal::Int(value) => [2, *value as u32, (*value as u64 >> 32) as u32],
        Literal::String(text) => [3, text.parse().expect("a string number"), 0],
    }
}

/// Adds a term of the job.
pub fn add_term(term_dag: &mut TermDag, cell: Cell) -> TermId {
    match cell.kind {
        0 => term_dag.lit(literal(cell.words)),
        1 => term_dag.var(names::text(cell.words[0])),
        _ => {
            let children = cell.words[1..].iter().map(|&child| child as TermId);
            term_dag.app(names::text(cell.words[0]), children.collect())
        }
    }
}

/// The kind and the pool words of a term.
fn term_words(term: &Term) -> (u32, Vec<u32>) {
    match term {
        Term::Lit(literal) => (0, literal_words(literal).to_vec()),
        Term::Var(name) => (1, vec![names::number(name)]),
        Term::App(name, children) => {
            let mut words = vec![names::number(name)];
            words.extend(children.iter().map(|&child| child as u32));
            (2, words)
        }
    }
}

/// Writes all terms over the lent arrays; words past them stay as lent.
pub fn write(term_dag: &TermDag, kinds: &mut [u32], ends: &mut [u32], pool: &mut [u32]) {
    let mut end = 0;
    for number in 0..term_dag.size() {
        let (kind, words) = term_words(term_dag.term(number));
        pool[end..end + words.len()].copy_from_slice(&words);
        end += words.len();
        kinds[number] = kind;
        ends[number] = end as u32;
    }
}
