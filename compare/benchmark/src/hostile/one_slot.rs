//! The hostile jobs aimed at one slot of an index.

use job::Tables;
use job::limits::{ACTIONS, CELLS, PROGRAM_CELLS, TERMS};
use tools::colliding;

use super::ground::Shape;
use super::turns::DEEP;
use super::{Hostile, STEPS, aimed, by_bytes_entry, hostile, lists, rows};

/// Steps that 65,536 bytes have room for beside the calls.
const BYTES_STEPS: usize = 770;

/// Terms that have one slot where the word is 0, with this word and with another.
pub const TERMS_OF_ONE_SLOT: &[Hostile] = &[
    aimed("16,384 terms of one slot, word 0", 1, terms),
    hostile("16,384 terms of one slot, other word", 1, terms),
    by_bytes_entry(aimed(
        "4,096 terms of one slot, bytes, word 0",
        1,
        terms_bytes,
    )),
    by_bytes_entry(hostile(
        "4,096 terms of one slot, bytes, other word",
        1,
        terms_bytes,
    )),
    aimed("3,824 calls of one slot, word 0", STEPS, last_calls),
    hostile("3,824 calls of one slot, other word", STEPS, last_calls),
    by_bytes_entry(aimed(
        "2,560 calls of one slot, bytes, word 0",
        BYTES_STEPS,
        added_calls,
    )),
    by_bytes_entry(hostile(
        "2,560 calls of one slot, bytes, other word",
        BYTES_STEPS,
        added_calls,
    )),
];

/// Names and rows that have one slot of their table where the word is 0, with this word and with another.
pub const TABLES_OF_ONE_SLOT: &[Hostile] = &[
    aimed("4,096 rules of one slot, word 0", STEPS, slot_rules),
    hostile("4,096 rules of one slot, other word", STEPS, slot_rules),
    aimed(
        "4,096 functions of one slot, word 0",
        STEPS - 1,
        slot_functions,
    ),
    hostile(
        "4,096 functions of one slot, other word",
        STEPS - 1,
        slot_functions,
    ),
    aimed(
        "4,096 normalisers of one slot, word 0",
        STEPS,
        slot_normalisers,
    ),
    hostile(
        "4,096 normalisers of one slot, other word",
        STEPS,
        slot_normalisers,
    ),
    aimed("4,096 rows of one slot, word 0", STEPS, slot_rows),
    hostile("4,096 rows of one slot, other word", STEPS, slot_rows),
    by_bytes_entry(aimed(
        "512 rows of one slot, bytes, word 0",
        500,
        slot_rows_bytes,
    )),
    by_bytes_entry(hostile(
        "512 rows of one slot, bytes, other word",
        500,
        slot_rows_bytes,
    )),
];

fn slot_rules(steps: usize) -> Tables {
    lists::rules(steps, &colliding::table_names())
}

fn slot_functions(steps: usize) -> Tables {
    lists::functions(steps, &colliding::table_names())
}

fn slot_normalisers(steps: usize) -> Tables {
    lists::misses(steps, &colliding::table_names())
}

fn slot_rows(steps: usize) -> Tables {
    rows::one_slot(Shape::last(8), CELLS as usize, 4_200, DEEP, 1, steps)
}

fn slot_rows_bytes(steps: usize) -> Tables {
    rows::one_slot(Shape::last(3), 512, 530, 870, ACTIONS, steps)
}

fn terms(_: usize) -> Tables {
    colliding::terms(TERMS)
}

fn terms_bytes(_: usize) -> Tables {
    colliding::terms(PROGRAM_CELLS as u32)
}

/// The calls stand last among as many terms of that slot as there may be.
fn last_calls(steps: usize) -> Tables {
    colliding::last_calls(TERMS as usize, 3_824, steps)
}

fn added_calls(steps: usize) -> Tables {
    colliding::added_calls(2_560, steps)
}
