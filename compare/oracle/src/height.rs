//! The height of an accepted proof, from request Q-2: only references that the check follows count.

use std::collections::HashMap;

use job::conditions::is_condition;
use job::{Job, Table};

/// 1 without references that the check follows, else one more than the greatest height among them. Each
/// proof is counted once, whichever way references go; those that are followed make no circle.
pub fn height(job: &Job, asked: u32) -> u32 {
    let rules = facts_of_rules(job);
    // 0 until it is counted.
    let mut heights = vec![0; job.count(Table::Proofs)];
    let mut pending = vec![asked];
    while let Some(proof) = pending.pop() {
        if heights[proof as usize] != 0 {
            continue;
        }
        let height = |&proof: &u32| heights[proof as usize];
        let references = followed(job, &rules, proof).into_iter();
        let (open, counted): (Vec<u32>, Vec<u32>) = references.partition(|it| height(it) == 0);
        if open.is_empty() {
            let greatest = counted.iter().map(height).max();
            heights[proof as usize] = greatest.unwrap_or(0) + 1;
        } else {
            pending.push(proof);
            pending.extend(open);
        }
    }
    heights[asked as usize]
}

/// The facts of the first rule of each name.
fn facts_of_rules<'a>(job: &Job<'a>) -> HashMap<u32, &'a [u32]> {
    let mut rules = HashMap::new();
    for cell in job.cells(Table::Rules) {
        let facts = &cell.words[2..2 + cell.words[1] as usize];
        rules.entry(cell.words[0]).or_insert(facts);
    }
    rules
}

/// What a proof that holds refers to, but for premises opposite container side conditions.
fn followed(job: &Job, rules: &HashMap<u32, &[u32]>, proof: u32) -> Vec<u32> {
    let cell = job.cell(Table::Proofs, proof as usize);
    let rest = &cell.words[2..];
    match cell.kind {
        1 => {
            let premises = &rest[2..2 + rest[1] as usize];
            let opposite = rules[&rest[0]].iter().zip(premises);
            let followed = opposite.filter(|&(&fact, _)| !is_condition(job, fact));
            followed.map(|(_, &premise)| premise).collect()
        }
        2 => rest[1..].to_vec(),
        5 => vec![rest[0], rest[2]],
        _ => rest.to_vec(),
    }
}
