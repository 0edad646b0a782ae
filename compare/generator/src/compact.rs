//! Leaves terms out that nothing in the job refers to, so that the check adds them.

use job::{Table, Tables};

use crate::random::Random;
use crate::roles::{Role, roles};

/// Keeps the terms that are referred to and some others, in another order.
pub fn compact(tables: &Tables, random: &mut Random) -> Tables {
    let mut keep = referred_terms(tables);
    let extra = random.pick(&[1, 2, 4, 1_000_000]);
    for kept in &mut keep {
        *kept |= random.once_in(extra);
    }
    keep_children(tables, &mut keep);
    let order = new_order(tables, &keep, random);
    renumbered(tables, &order)
}

fn referred_terms(tables: &Tables) -> Vec<bool> {
    let mut referred = vec![false; tables.count(Table::Terms) as usize];
    for table in [Table::Rows, Table::Proofs] {
        for cell in tables.of(table) {
            for (role, &word) in roles(table, cell.kind, &cell.words).iter().zip(&cell.words) {
                if *role == Role::Reference(Table::Terms) {
                    referred[word as usize] = true;
                }
            }
        }
    }
    referred
}

fn keep_children(tables: &Tables, keep: &mut [bool]) {
    for term in (0..keep.len()).rev() {
        let cell = &tables.of(Table::Terms)[term];
        if keep[term] && cell.kind == 2 {
            for &child in &cell.words[1..] {
                keep[child as usize] = true;
            }
        }
    }
}

/// The kept terms, children before parents; sometimes not in the order in which they came.
fn new_order(tables: &Tables, keep: &[bool], random: &mut Random) -> Vec<u32> {
    let mut roots: Vec<u32> = (0..keep.len() as u32)
        .filter(|&term| keep[term as usize])
        .collect();
    if random.once_in(3) {
        for place in (1..roots.len()).rev() {
            roots.swap(place, random.below(place + 1));
        }
    }
    let mut order = Vec::new();
    let mut placed = vec![false; keep.len()];
    for root in roots {
        place_after_children(tables, root, &mut placed, &mut order);
    }
    order
}

fn place_after_children(tables: &Tables, root: u32, placed: &mut [bool], order: &mut Vec<u32>) {
    let mut pending = vec![(root, false)];
    while let Some((term, children_placed)) = pending.pop() {
        if placed[term as usize] {
            continue;
        }
        if children_placed {
            placed[term as usize] = true;
            order.push(term);
            continue;
        }
        pending.push((term, true));
        let cell = &tables.of(Table::Terms)[term as usize];
        if cell.kind == 2 {
            pending.extend(cell.words[1..].iter().rev().map(|&child| (child, false)));
        }
    }
}

fn renumbered(tables: &Tables, order: &[u32]) -> Tables {
    let mut numbers = vec![u32::MAX; tables.count(Table::Terms) as usize];
    for (number, &term) in order.iter().enumerate() {
        numbers[term as usize] = number as u32;
    }
    let mut result = Tables::default();
    result.globals = tables.globals;
    for &term in order {
        let cell = &tables.of(Table::Terms)[term as usize];
        let words = renumbered_words(Table::Terms, cell.kind, &cell.words, &numbers);
        result.push(Table::Terms, cell.kind, &words);
    }
    for table in Table::ALL.into_iter().skip(1) {
        for cell in tables.of(table) {
            let words = renumbered_words(table, cell.kind, &cell.words, &numbers);
            result.push(table, cell.kind, &words);
        }
    }
    result
}

fn renumbered_words(table: Table, kind: u32, words: &[u32], numbers: &[u32]) -> Vec<u32> {
    roles(table, kind, words)
        .iter()
        .zip(words)
        .map(|(role, &word)| match role {
            Role::Reference(Table::Terms) => numbers[word as usize],
            Role::Lower if table == Table::Terms => numbers[word as usize],
            _ => word,
        })
        .collect()
}
