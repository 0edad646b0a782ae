//! 9: equal terms, rows or normalisers, and a name bound twice.

use std::collections::HashSet;

use crate::layout::{Job, Table};

/// The least cell over all tables that repeats an earlier one, or binds a name twice.
pub fn least_cell(job: &Job) -> Option<usize> {
    let in_table =
        |table: Table, number: Option<usize>| number.map(|number| job.global_number(table, number));
    in_table(Table::Terms, repeated_term(job))
        .or_else(|| in_table(Table::Rows, repeated_row(job)))
        .or_else(|| in_table(Table::Normalisers, repeated_normaliser(job)))
        .or_else(|| in_table(Table::Proofs, name_bound_twice(job)))
}

/// The place of the first item that occurred before.
fn first_repeated<T: Eq + std::hash::Hash>(mut items: impl Iterator<Item = T>) -> Option<usize> {
    let mut seen = HashSet::new();
    items.position(|item| !seen.insert(item))
}

fn repeated_term(job: &Job) -> Option<usize> {
    first_repeated(job.cells(Table::Terms).map(|cell| (cell.kind, cell.words)))
}

fn repeated_row(job: &Job) -> Option<usize> {
    first_repeated(
        job.cells(Table::Rows)
            .map(|cell| (cell.words[0], &cell.words[2..])),
    )
}

fn repeated_normaliser(job: &Job) -> Option<usize> {
    first_repeated(job.cells(Table::Normalisers).map(|cell| cell.words[0]))
}

fn name_bound_twice(job: &Job) -> Option<usize> {
    job.cells(Table::Proofs).position(|cell| {
        cell.kind == 1 && {
            let pairs = &cell.words[4 + cell.words[3] as usize..];
            first_repeated(pairs.chunks(2).map(|pair| pair[0])).is_some()
        }
    })
}
