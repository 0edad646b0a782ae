//! Jobs aimed at the numbers 1 to 9.

use job::primitives::COUNTING;
use job::{Table, Tables};

use crate::random::Random;
use crate::roles::{Role, roles};

/// The numbers that a job's form can be aimed at.
pub const AIMED_BY_FORM: [u32; 8] = [1, 2, 3, 5, 6, 7, 8, 9];

/// The words and the asked proof of a job that is to be refused with this number; a counting one
/// more often for its primitives.
pub fn malformed(
    mut tables: Tables,
    asked: u32,
    (number, counting): (u32, bool),
    random: &mut Random,
) -> (Vec<u32>, u32) {
    match number {
        6 if counting && random.once_in(3) => unknown_primitive(&mut tables, random),
        6 => unformed_cell(&mut tables, random),
        7 => wrong_reference(&mut tables, random),
        8 if counting && random.once_in(2) => counting_in_place(&mut tables, random),
        8 => missing_validator(&mut tables, counting, random),
        9 => repeated(&mut tables, random),
        2 => tables.globals = tables.count(Table::Actions) + 1 + random.below(3) as u32,
        _ => {}
    }
    let proofs = tables.count(Table::Proofs);
    let mut words = tables.words();
    match number {
        1 => wrong_length(&mut words, random),
        3 => {
            let past = random.pick(&[proofs, proofs + 1, u32::MAX]);
            return (words, past);
        }
        5 => wrong_ends(&mut words, random),
        _ => {}
    }
    (words, asked)
}

fn wrong_length(words: &mut Vec<u32>, random: &mut Random) {
    match random.below(5) {
        0 => words.truncate(random.below(13)),
        1 => words.push(0),
        2 => {
            words.pop();
        }
        3 => words[random.below(12)] = u32::MAX,
        _ => {
            let place = random.pick(&[0, 1, 2, 3, 5, 6, 7, 8, 9, 10, 11]);
            words[place] = words[place].wrapping_add(1);
        }
    }
}

fn wrong_ends(words: &mut [u32], random: &mut Random) {
    let cells = (words.len() - 12 - words[11] as usize) / 2;
    let ends = &mut words[12 + cells..12 + 2 * cells];
    let place = match random.once_in(3) {
        true => cells - 1,
        false => random.below(cells),
    };
    ends[place] = match random.below(4) {
        0 => ends[place].wrapping_sub(1),
        1 => ends[place].wrapping_add(random.between(1, 9) as u32),
        2 => u32::MAX,
        _ => 0,
    };
}

/// Any cell of the job, as its table and number.
fn any_cell(tables: &Tables, random: &mut Random) -> (Table, usize) {
    loop {
        let table = random.pick(&Table::ALL);
        let count = tables.count(table) as usize;
        if count > 0 {
            return (table, random.below(count));
        }
    }
}

fn unformed_cell(tables: &mut Tables, random: &mut Random) {
    if random.once_in(3) {
        return too_many_operands(tables, random);
    }
    let (table, number) = any_cell(tables, random);
    let cell = &mut tables.of_mut(table)[number];
    match random.below(6) {
        0 => cell.kind = random.pick(&[8, 9, u32::MAX]),
        1 => cell.words.clear(),
        2 => {
            cell.words.pop();
        }
        3 => cell.words.push(0),
        4 => cell.words.extend([0; 19]),
        _ if table == Table::Proofs || table == Table::Rules => {
            let place = if table == Table::Proofs { 3 } else { 1 };
            if let Some(count) = cell.words.get_mut(place) {
                *count = random.pick(&[17, 4_097, u32::MAX, *count + 1]);
            }
        }
        _ => {
            cell.kind = 0;
            cell.words = random
                .pick(&[
                    [0, 1, 0],
                    [0, 0, 1],
                    [1, 2, 0],
                    [1, 0, 1],
                    [3, 0, 1],
                    [4, 0, 0],
                ])
                .to_vec();
        }
    }
}

/// One past each limit per cell.
fn too_many_operands(tables: &mut Tables, random: &mut Random) {
    let seventeen = [0; 18];
    match random.below(9) {
        0 => tables.push(Table::Terms, 2, &seventeen),
        1 => tables.push(Table::Expressions, 2, &seventeen),
        2 => tables.push(Table::Expressions, 4, &seventeen),
        3 => tables.push(Table::Rows, 0, &[0; 19]),
        4 => tables.rule(90, &[0; 17], &[]),
        5 => tables.rule(90, &[], &[0; 65]),
        6 => {
            let pairs: Vec<(u32, u32)> = (0..33).map(|name| (name, 0)).collect();
            tables.rule_step((0, 0), 90, &[], &pairs)
        }
        7 if random.once_in(10) => tables.rule_step((0, 0), 90, &[0; 4_097], &[]),
        7 => tables.push(Table::Proofs, 1, &[0, 0, 90, 0, 7]),
        _ => {
            let expression = tables.variable(9);
            tables.set_action(expression)
        }
    };
}

fn wrong_reference(tables: &mut Tables, random: &mut Random) {
    for _ in 0..20 {
        let (table, number) = any_cell(tables, random);
        let cell = tables.of(table)[number].clone();
        let references: Vec<(usize, u32)> = roles(table, cell.kind, &cell.words)
            .iter()
            .enumerate()
            .filter_map(|(place, role)| match role {
                Role::Reference(to) => Some((place, tables.count(*to))),
                Role::Lower => Some((place, number as u32)),
                _ => None,
            })
            .collect();
        if let Some((place, bound)) = random.pick_any(&references) {
            let past = random.pick(&[bound, bound, bound + 1, u32::MAX]);
            tables.of_mut(table)[number].words[place] = past;
            return;
        }
    }
    let terms = tables.count(Table::Terms);
    tables.fiat((terms, terms));
}

/// A primitive of a kind past the last, or with another count of words.
fn unknown_primitive(tables: &mut Tables, random: &mut Random) {
    let number = match tables.count(Table::Primitives) {
        0 => tables.primitive(1, 91),
        count => random.below(count as usize) as u32,
    };
    let cell = &mut tables.of_mut(Table::Primitives)[number as usize];
    match random.below(6) {
        0 => cell.words.clear(),
        1 => cell.words.push(0),
        2 => cell.kind = u32::MAX,
        3 => cell.kind = 10,
        4 => cell.kind |= 1 << random.between(4, 31),
        _ => cell.kind = 9,
    }
}

/// The primitive of a row or a normaliser becomes one that computes.
fn counting_in_place(tables: &mut Tables, random: &mut Random) {
    let mut named: Vec<u32> = Vec::new();
    named.extend(tables.of(Table::Rows).iter().map(|cell| cell.words[0]));
    let normalisers = tables.of(Table::Normalisers).iter();
    named.extend(normalisers.map(|cell| cell.words[1]));
    match random.pick_any(&named) {
        Some(primitive) => {
            let kind = random.pick(&COUNTING);
            tables.of_mut(Table::Primitives)[primitive as usize].kind = kind;
        }
        None => missing_validator(tables, true, random),
    }
}

fn missing_validator(tables: &mut Tables, counting: bool, random: &mut Random) {
    let kind = match counting {
        true => random.pick(&[0, 2, 4, 5, 6, 7, 8]),
        false => random.pick(&[0, 2]),
    };
    let primitive = tables.primitive(kind, 91);
    match random.below(3) {
        0 => tables.row(primitive, 0, &[]),
        1 => tables.normaliser(92, primitive),
        _ => {
            let last = tables.of_mut(Table::Rows).last_mut();
            match last {
                Some(row) => {
                    row.words[0] = primitive;
                    0
                }
                None => tables.row(primitive, 0, &[0]),
            }
        }
    };
}

fn repeated(tables: &mut Tables, random: &mut Random) {
    let again = |tables: &mut Tables, table: Table, random: &mut Random| {
        let count = tables.count(table) as usize;
        if count > 0 {
            let cell = tables.of(table)[random.below(count)].clone();
            tables.push(table, cell.kind, &cell.words);
        }
        count > 0
    };
    let done = match random.below(5) {
        0 => again(tables, Table::Rows, random),
        1 => again(tables, Table::Normalisers, random),
        2 => {
            tables.rule_step((0, 0), 93, &[], &[(5, 0), (6, 0), (5, 0)]);
            true
        }
        _ => false,
    };
    if !done {
        again(tables, Table::Terms, random);
    }
}
