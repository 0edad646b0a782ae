//! The calls of a seed in other modes than 0: those of its first two cases in strict mode, and those of
//! its case with bare container conditions.

use generator::{Case, OTHER_MODES, Random};
use job::Job;
use job::limits::{PROGRAM_BYTES, SIZES};
use job::modes::{PLAIN, STRICT, bare_containers};
use tools::to_bytes;

use crate::call::{Call, Judge};
use crate::variants::{
    OTHER_LENGTHS, Source, Variant, any_proof, bytes, lent, tight, with_other_scratch,
};

/// Tells their random numbers from those of the other calls.
const MODES: u64 = 0x6d6f_6465_735f_3031;
/// One seed of so many has the calls of its case with conditions.
const EVERY: u64 = 2;

/// The calls; the same on every machine.
pub fn calls(seed: u64, cases: &[(Source, Case)]) -> Vec<Call> {
    let mut random = Random::new(!seed ^ MODES);
    let mut calls = Vec::new();
    for (source, case) in cases {
        let strict = in_strict_mode(case.clone().in_mode(STRICT), &mut random);
        calls.push(Call {
            source: *source,
            ..strict
        });
    }
    if seed.is_multiple_of(EVERY) {
        let case = Source::ConditionJob.case(seed);
        let made = with_conditions(&case, &mut random).into_iter();
        calls.extend(made.map(|call| Call {
            source: Source::ConditionJob,
            ..call
        }));
    }
    calls
}

/// The case held to the Rust or, where the mode is to make no difference, to the library in mode 0, of
/// which the other calls hold the same case to the Rust.
fn in_strict_mode(strict: Case, random: &mut Random) -> Call {
    match may_differ(&strict.job) {
        true => lent(Variant::Strict, strict, random),
        false => Call {
            judge: Judge::Mode0,
            ..lent(Variant::BothModes, strict, random)
        },
    }
}

/// The job has bare container conditions; one that is no job has none.
fn may_differ(words: &[u32]) -> bool {
    Job::read(words).is_some_and(|job| {
        job.sizes.within_limits() && job.ends_formed() && !bare_containers(&job).is_empty()
    })
}

/// Six calls, two of them with scratch of two contents.
fn with_conditions(case: &Case, random: &mut Random) -> Vec<Call> {
    vec![
        with_other_scratch(lent(Variant::AsMade, case.clone(), random)),
        tight(case, random),
        other_mode(case, random),
        refused_mode(case.clone(), random),
        with_other_scratch(host_mode(case, random)),
        host_refused_mode(case, random),
    ]
}

/// The other one of 0 and 1, or one that is refused.
fn other_mode(case: &Case, random: &mut Random) -> Call {
    let mode = match random.below(3) {
        0 => unknown_mode(random),
        _ if case.mode == STRICT => PLAIN,
        _ => STRICT,
    };
    lent(Variant::OtherMode, case.clone().in_mode(mode), random)
}

/// A mode that is refused.
fn unknown_mode(random: &mut Random) -> u32 {
    match random.once_in(4) {
        true => (random.word() as u32).max(2),
        false => random.pick(&OTHER_MODES),
    }
}

/// A mode that is refused, and one of 1, 2, 3, 5, 6 and 10 beside it.
fn refused_mode(mut case: Case, random: &mut Random) -> Call {
    case.mode = unknown_mode(random);
    let mut answer = None;
    match random.below(8) {
        0 => drop(case.job.pop()),
        1 => change(&mut case.job, 4, u32::MAX),
        2 => case.asked = random.pick(&[case.job.get(10).copied().unwrap_or(0), u32::MAX]),
        3 => change_cells(&mut case.job, true, random),
        4 => change_cells(&mut case.job, false, random),
        5 => case.ends += 1,
        6 => case.scratch = case.scratch.saturating_sub(1),
        _ => answer = Some(random.pick(&OTHER_LENGTHS)),
    }
    let call = lent(Variant::RefusedMode, case, random);
    Call {
        answer: answer.unwrap_or(call.answer),
        ..call
    }
}

/// Sets a word of the job, if it has so many.
fn change(job: &mut [u32], place: usize, word: u32) {
    if let Some(there) = job.get_mut(place) {
        *there = word;
    }
}

/// Sets some cell's end, or its kind, to the greatest word.
fn change_cells(job: &mut [u32], end: bool, random: &mut Random) {
    let cells = Job::read(job).map_or(0, |job| job.sizes.cells() as usize);
    let first = SIZES + if end { cells } else { 0 };
    change(job, first + random.below(cells.max(1)), u32::MAX);
}

/// The host entry in the case's mode or another one that is not refused.
fn host_mode(case: &Case, random: &mut Random) -> Call {
    let asked = match random.once_in(4) {
        true => any_proof(case, random),
        false => case.asked,
    };
    let mode = match random.once_in(3) {
        true => random.pick(&[PLAIN, STRICT]),
        false => case.mode,
    };
    let call = bytes(Variant::HostMode, to_bytes(&case.job), asked, random);
    call.in_mode(mode)
}

/// The host entry in a mode that is refused: the whole job, or too few or too many bytes, no such proof,
/// or an answer's buffer of another length.
fn host_refused_mode(case: &Case, random: &mut Random) -> Call {
    let mut job = to_bytes(&case.job);
    let mode = unknown_mode(random);
    let chance = random.below(8);
    match chance {
        0 => job.truncate(job.len().saturating_sub(random.between(1, 3))),
        1 => job.resize(PROGRAM_BYTES + 4, 0),
        _ => {}
    }
    let asked = if chance == 2 { u32::MAX } else { case.asked };
    let call = bytes(Variant::HostRefusedMode, job, asked, random).in_mode(mode);
    match chance {
        3 => Call {
            answer: random.pick(&OTHER_LENGTHS),
            ..call
        },
        _ => call,
    }
}
