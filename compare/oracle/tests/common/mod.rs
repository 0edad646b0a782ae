//! Runs a hand-made job and looks at everything it leaves.
#![allow(dead_code)]

use job::limits::{index_slots, scratch_words};
use job::modes::{PLAIN, STRICT};
use job::{Job, Table, Tables};
use oracle::check;

/// What a lent word holds before the check.
fn lent(array: u32, length: usize) -> Vec<u32> {
    (0..length as u32)
        .map(|place| 0xabcd_0000 ^ array << 28 ^ place)
        .collect()
}

/// The answer and the terms that the store holds beyond the job's.
#[derive(Debug, PartialEq)]
pub struct Ran {
    pub answer: [u32; 8],
    pub added: Vec<(u32, Vec<u32>)>,
}

pub struct Room {
    pub cells: usize,
    pub pool: usize,
}

pub const WIDE: Room = Room {
    cells: 200,
    pool: 2_000,
};

/// Asks for the last proof, with room enough.
pub fn run(tables: &Tables) -> Ran {
    let asked = tables.count(Table::Proofs) - 1;
    run_words(&tables.words(), asked, &WIDE)
}

pub fn run_in(tables: &Tables, room: &Room) -> Ran {
    let asked = tables.count(Table::Proofs) - 1;
    run_words(&tables.words(), asked, room)
}

pub fn run_asked(tables: &Tables, asked: u32) -> Ran {
    run_words(&tables.words(), asked, &WIDE)
}

/// Asks for the last proof in strict mode, with room enough.
pub fn run_strict(tables: &Tables) -> Ran {
    run_strict_in(tables, &WIDE)
}

pub fn run_strict_in(tables: &Tables, room: &Room) -> Ran {
    let asked = tables.count(Table::Proofs) - 1;
    run_words_mode(&tables.words(), asked, STRICT, room)
}

pub fn run_words(words: &[u32], asked: u32, room: &Room) -> Ran {
    run_words_mode(words, asked, PLAIN, room)
}

pub fn run_words_mode(words: &[u32], asked: u32, mode: u32, room: &Room) -> Ran {
    run_with_index(words, asked, mode, room, index_slots(room.cells))
}

/// The same with an index of so many slots.
pub fn run_with_index(words: &[u32], asked: u32, mode: u32, room: &Room, index: usize) -> Ran {
    let proofs = words.get(10).copied().unwrap_or(0).min(4_096) as usize;
    let scratch = scratch_words(room.cells, proofs);
    let mut kinds = lent(1, room.cells);
    let mut ends = lent(2, room.cells);
    let mut pool = lent(3, room.pool);
    let mut answer = [0x5555_5555; 8];
    let number = check(
        words,
        asked,
        mode,
        &mut kinds,
        &mut ends,
        &mut pool,
        index,
        scratch,
        &mut answer,
    )
    .expect("few steps");
    assert_eq!(number, answer[0]);
    let added = added(words, &answer, &kinds, &ends, &pool);
    Ran { answer, added }
}

/// Takes the store's words apart: the job's terms first, as they stand in the job, then what
/// was added; the words past them as lent.
fn added(
    words: &[u32],
    answer: &[u32; 8],
    kinds: &[u32],
    ends: &[u32],
    pool: &[u32],
) -> Vec<(u32, Vec<u32>)> {
    let terms = answer[1] as usize;
    let mut cells = Vec::new();
    let mut start = 0;
    for number in 0..terms {
        let end = ends[number] as usize;
        cells.push((kinds[number], pool[start..end].to_vec()));
        start = end;
    }
    assert_eq!(kinds[terms..], lent(1, kinds.len())[terms..]);
    assert_eq!(ends[terms..], lent(2, ends.len())[terms..]);
    assert_eq!(pool[start..], lent(3, pool.len())[start..]);
    if (1..20).contains(&answer[0]) {
        assert_eq!(terms, 0);
        return Vec::new();
    }
    let job = Job::read(words).expect("a job");
    for (number, cell) in job.cells(Table::Terms).enumerate() {
        assert_eq!(cells[number], (cell.kind, cell.words.to_vec()));
    }
    cells.split_off(job.count(Table::Terms))
}

/// The answer alone: number, terms, fields, the rest 0.
pub fn answer(number: u32, terms: u32, fields: &[u32]) -> [u32; 8] {
    let mut words = [0; 8];
    words[0] = number;
    words[1] = terms;
    words[2..2 + fields.len()].copy_from_slice(fields);
    words
}

/// The answer and the store that it leaves.
#[track_caller]
pub fn expect(ran: Ran, number: u32, terms: u32, fields: &[u32], added: &[(u32, &[u32])]) {
    let added: Vec<(u32, Vec<u32>)> = added
        .iter()
        .map(|(kind, words)| (*kind, words.to_vec()))
        .collect();
    let expected = Ran {
        answer: answer(number, terms, fields),
        added,
    };
    assert_eq!(ran, expected);
}
