//! Changes to a job word by word: within what the load checks allow, or anywhere.

use job::{Table, Tables};

use crate::random::Random;
use crate::roles::{Role, roles};

/// Changes one word or kind of a cell, mostly so that the job still loads. A primitive's kind becomes
/// any up to the given one.
pub fn damage_cell(tables: &mut Tables, primitive_kind: u32, random: &mut Random) {
    let table = random.pick(&[
        Table::Terms,
        Table::Expressions,
        Table::Expressions,
        Table::Facts,
        Table::Actions,
        Table::Functions,
        Table::Primitives,
        Table::Rows,
        Table::Normalisers,
        Table::Rules,
        Table::Proofs,
        Table::Proofs,
        Table::Proofs,
        Table::Proofs,
    ]);
    let count = tables.count(table) as usize;
    if count == 0 {
        return;
    }
    let number = random.below(count);
    if random.once_in(6) {
        return change_kind(tables, (table, number), primitive_kind, random);
    }
    let cell = tables.of(table)[number].clone();
    let roles = roles(table, cell.kind, &cell.words);
    if roles.is_empty() {
        return;
    }
    let place = random.below(roles.len());
    let word = new_word(tables, roles[place], number, cell.words[place], random);
    tables.of_mut(table)[number].words[place] = word;
}

fn new_word(tables: &Tables, role: Role, number: usize, word: u32, random: &mut Random) -> u32 {
    match role {
        Role::Name => match random.below(4) {
            0 => random.below(8) as u32,
            1 => word.wrapping_add(1),
            2 => word.wrapping_sub(1),
            _ => any_name(tables, random),
        },
        Role::Number => match random.below(4) {
            0 => word.wrapping_add(1),
            1 => word.wrapping_sub(1),
            _ => random.below(4) as u32,
        },
        Role::Reference(table) => match tables.count(table) as usize {
            0 => word,
            count => random.below(count) as u32,
        },
        Role::Lower => match number {
            0 => word,
            _ => random.below(number) as u32,
        },
    }
}

/// A name that occurs somewhere in the job.
fn any_name(tables: &Tables, random: &mut Random) -> u32 {
    let table = random.pick(&[
        Table::Terms,
        Table::Expressions,
        Table::Rules,
        Table::Functions,
    ]);
    match tables.of(table).as_slice() {
        [] => 4,
        cells => cells[random.below(cells.len())].words[0],
    }
}

/// Another kind with the same number of words, where there is one.
fn change_kind(
    tables: &mut Tables,
    (table, number): (Table, usize),
    primitive_kind: u32,
    random: &mut Random,
) {
    let cell = &mut tables.of_mut(table)[number];
    cell.kind = match (table, cell.kind) {
        (Table::Expressions, 2) => 3,
        (Table::Expressions, 3) => 2,
        (Table::Primitives, _) => random.below(primitive_kind as usize + 1) as u32,
        (Table::Actions, 2) => 3,
        (Table::Actions, 0) => 1,
        (Table::Proofs, 0) => 7,
        (Table::Proofs, 7) => 0,
        (Table::Proofs, 4) => 6,
        (Table::Proofs, 6) => 4,
        (Table::Proofs, 2) => 5,
        (Table::Proofs, 5) => 2,
        (_, kind) => kind,
    };
}

/// Changes one word of the job, whatever it is.
pub fn damage_word(words: &mut Vec<u32>, random: &mut Random) {
    if words.is_empty() {
        return;
    }
    let place = match random.once_in(8) {
        true => random.below(words.len().min(12)),
        false => random.below(words.len()),
    };
    let word = words[place];
    words[place] = match random.below(8) {
        0 => word.wrapping_add(1),
        1 => word.wrapping_sub(1),
        2 => random.word() as u32,
        3 => word ^ 1 << random.below(32),
        4 => words[random.below(words.len())],
        5 => u32::MAX,
        _ => random.below(16) as u32,
    };
    match random.below(40) {
        0 => {
            words.remove(place);
        }
        1 => words.insert(place, word),
        2 => words.truncate(place),
        _ => {}
    }
}
