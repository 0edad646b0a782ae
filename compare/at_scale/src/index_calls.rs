//! The calls of one of a seed's first two cases, in turn, with other indexes than those of the other calls.

use generator::{Case, Random, slots};
use job::limits::index_slots;
use job::{Table, Tables};
use tools::colliding;

use crate::call::{Call, Input};
use crate::variants::{Source, Variant, lent, tight, with_other_scratch};

/// Tells their random numbers from those of the other calls.
const INDEXES: u64 = 0x696e_6465_7865_7331;

/// The calls; the same on every machine.
pub fn calls(seed: u64, cases: &[(Source, Case)]) -> Vec<Call> {
    let mut random = Random::new(!seed ^ INDEXES);
    let (source, case) = &cases[seed as usize % cases.len()];
    let made = [
        other_index(case.clone(), &mut random),
        index_length(case.clone(), &mut random),
        with_other_scratch(colliding(case, &mut random)),
    ];
    made.map(|call| Call {
        source: *source,
        ..call
    })
    .into()
}

/// Of any size that is taken, up to 64 times the fewest slots.
fn other_index(mut case: Case, random: &mut Random) -> Call {
    case.index = index_slots(case.kinds) << random.below(7);
    case.index_fill = random.word() as u32;
    lent(Variant::OtherIndex, case, random)
}

/// Of a size that is refused; sometimes something else is refused, too.
fn index_length(mut case: Case, random: &mut Random) -> Call {
    case.index = slots::refused(case.kinds, random);
    match random.below(10) {
        0 => case.ends += 1,
        1 => case.scratch = case.scratch.saturating_sub(1),
        2 => case.pool = random.below(case.pool + 1),
        3 => case.asked = u32::MAX,
        4 | 5 => repeat_term(&mut case.job, random),
        _ => {}
    }
    lent(Variant::IndexLength, case, random)
}

/// Appends one of the job's terms once more, if it has any.
fn repeat_term(job: &mut Vec<u32>, random: &mut Random) {
    let Some(mut tables) = Tables::read(job) else {
        return;
    };
    let terms = tables.of_mut(Table::Terms);
    if !terms.is_empty() {
        let again = terms[random.below(terms.len())].clone();
        terms.push(again);
        *job = tables.words();
    }
}

/// Just as much room as the check takes, or as the case says, and other names: terms have one slot with the
/// first of two indexes, mostly the last slot, so that they go on at the first.
fn colliding(case: &Case, random: &mut Random) -> Call {
    let mut call = match random.once_in(2) {
        true => tight(case, random),
        false => lent(Variant::Tight, case.clone().with_fewest_slots(), random),
    };
    call.variant = Variant::Colliding;
    let word = call.word(call.scratches[0]);
    if let Input::Words(case) = &mut call.input {
        let slot = match random.once_in(4) {
            true => random.below(case.index),
            false => case.index - 1,
        };
        if let Some(renamed) = colliding::renamed(&case.job, word, case.index, slot) {
            case.job = renamed;
        }
    }
    call
}
