//! The calls that are made for a seed: for each of the generator's first two cases, the case itself and
//! variants that the seed chooses; then those of `mode_calls` and of `index_calls`.

use generator::{Case, Random, room};
use job::limits::ANSWER;
use tools::to_bytes;

use crate::call::{Call, Input, Judge};
use crate::{index_calls, mode_calls};

/// Lengths of an answer's buffer that are 10 at once.
pub const OTHER_LENGTHS: [usize; 5] = [0, 1, 7, 9, 16];
/// More than arrays are made longer by, so that scratch is not what is refused.
const SPARE_SCRATCH: usize = 100;

/// Which of a seed's three cases a call is made of.
#[derive(Clone, Copy, PartialEq, Eq, Debug)]
pub enum Source {
    Job,
    CountingJob,
    ConditionJob,
}

impl Source {
    pub fn case(self, seed: u64) -> Case {
        match self {
            Source::Job => generator::job(seed),
            Source::CountingJob => generator::counting_job(seed),
            Source::ConditionJob => generator::condition_job(seed),
        }
    }
}

/// Why a call is made.
#[derive(Clone, Copy, PartialEq, Eq, PartialOrd, Ord, Debug)]
pub enum Variant {
    AsMade,
    AnswerLength,
    Tight,
    UnequalArrays,
    ScratchLength,
    OtherProof,
    Host,
    HostAnswerLength,
    HostOtherProof,
    HostCut,
    HostAdded,
    HostPrefix,
    /// The case in strict mode.
    Strict,
    /// The same, held to the library in mode 0.
    BothModes,
    OtherMode,
    /// A mode that is refused, with something else that is.
    RefusedMode,
    HostMode,
    HostRefusedMode,
    /// Another index that is taken.
    OtherIndex,
    /// An index that is refused, sometimes with something else that is.
    IndexLength,
    /// Names by which terms have one slot.
    Colliding,
}

impl Variant {
    pub const ALL: [Variant; 21] = [
        Variant::AsMade,
        Variant::AnswerLength,
        Variant::Tight,
        Variant::UnequalArrays,
        Variant::ScratchLength,
        Variant::OtherProof,
        Variant::Host,
        Variant::HostAnswerLength,
        Variant::HostOtherProof,
        Variant::HostCut,
        Variant::HostAdded,
        Variant::HostPrefix,
        Variant::Strict,
        Variant::BothModes,
        Variant::OtherMode,
        Variant::RefusedMode,
        Variant::HostMode,
        Variant::HostRefusedMode,
        Variant::OtherIndex,
        Variant::IndexLength,
        Variant::Colliding,
    ];
}

/// The calls of a seed; the same on every machine.
pub fn calls(seed: u64) -> Vec<Call> {
    let mut random = Random::new(!seed);
    let cases = [Source::Job, Source::CountingJob].map(|source| (source, source.case(seed)));
    let mut calls = Vec::new();
    for (source, case) in &cases {
        calls.extend(calls_of(*source, case, &mut random));
    }
    calls.extend(mode_calls::calls(seed, &cases));
    calls.extend(index_calls::calls(seed, &cases));
    calls
}

/// Seven calls, three of them with scratch of two contents.
fn calls_of(source: Source, case: &Case, random: &mut Random) -> Vec<Call> {
    let mut calls = vec![
        with_other_scratch(lent(Variant::AsMade, case.clone(), random)),
        answer_length(case.clone(), random),
        with_other_scratch(tight(case, random)),
        match random.once_in(2) {
            true => unequal_arrays(case.clone(), random),
            false => scratch_length(case.clone(), random),
        },
        other_proof(case.clone(), random),
        with_other_scratch(host(case, random)),
        host_damaged(case, random),
    ];
    for call in &mut calls {
        call.source = source;
    }
    calls
}

/// A call with a lent store; whose case it is, is said afterwards.
pub fn lent(variant: Variant, case: Case, random: &mut Random) -> Call {
    Call {
        source: Source::Job,
        variant,
        judge: Judge::Rust,
        input: Input::Words(case),
        answer: ANSWER,
        scratches: vec![random.word() as u32],
    }
}

/// The call once more, with scratch and index of other contents; at a host entry, with another answer's
/// buffer.
pub fn with_other_scratch(mut call: Call) -> Call {
    call.scratches.push(call.scratches[0].wrapping_add(1));
    call
}

fn answer_length(case: Case, random: &mut Random) -> Call {
    Call {
        answer: random.pick(&OTHER_LENGTHS),
        ..lent(Variant::AnswerLength, case, random)
    }
}

/// C or W is what the check takes, one short, or in between.
pub fn tight(case: &Case, random: &mut Random) -> Call {
    let mut tight = room::chosen(case.job.clone(), case.asked, case.mode, random);
    tight.fill = case.fill;
    tight.index_fill = case.index_fill;
    lent(Variant::Tight, tight, random)
}

fn unequal_arrays(mut case: Case, random: &mut Random) -> Call {
    let cells = case.kinds;
    let other = match random.below(4) {
        0 => cells + 1,
        1 => cells.saturating_sub(1),
        2 => cells + random.between(2, SPARE_SCRATCH / 2),
        _ => random.below(cells + 1),
    };
    match random.once_in(2) {
        true => case.kinds = other,
        false => case.ends = other,
    }
    case.scratch += SPARE_SCRATCH;
    lent(Variant::UnequalArrays, case, random)
}

fn scratch_length(mut case: Case, random: &mut Random) -> Call {
    case.scratch = match random.below(4) {
        0 => case.scratch.saturating_sub(1),
        1 => random.below(case.scratch + 1),
        2 => case.scratch + 1,
        _ => case.scratch + random.between(2, 5_000),
    };
    lent(Variant::ScratchLength, case, random)
}

/// One of the job's proofs, the first one, or one that the job has not.
pub fn any_proof(case: &Case, random: &mut Random) -> u32 {
    let proofs = case.job.get(10).copied().unwrap_or(0);
    match random.below(8) {
        0..=3 => random.below(proofs.max(1) as usize) as u32,
        4 | 5 => 0,
        6 => proofs,
        _ => u32::MAX,
    }
}

fn other_proof(mut case: Case, random: &mut Random) -> Call {
    case.asked = any_proof(&case, random);
    lent(Variant::OtherProof, case, random)
}

/// A call of the host entry; whose case it is, is said afterwards.
pub fn bytes(variant: Variant, job: Vec<u8>, asked: u32, random: &mut Random) -> Call {
    let mode = None;
    Call {
        source: Source::Job,
        variant,
        judge: Judge::Rust,
        input: Input::Bytes { job, asked, mode },
        answer: ANSWER,
        scratches: vec![random.word() as u32],
    }
}

fn host(case: &Case, random: &mut Random) -> Call {
    let job = to_bytes(&case.job);
    match random.below(8) {
        0 => Call {
            answer: random.pick(&OTHER_LENGTHS),
            ..bytes(Variant::HostAnswerLength, job, case.asked, random)
        },
        1 | 2 => {
            let asked = any_proof(case, random);
            bytes(Variant::HostOtherProof, job, asked, random)
        }
        _ => bytes(Variant::Host, job, case.asked, random),
    }
}

/// The host entry on bytes with one to three cut off or added, or cut anywhere.
fn host_damaged(case: &Case, random: &mut Random) -> Call {
    let mut job = to_bytes(&case.job);
    let few = random.between(1, 3);
    let variant = match random.below(3) {
        0 => {
            job.truncate(job.len().saturating_sub(few));
            Variant::HostCut
        }
        1 => {
            job.extend((0..few).map(|_| random.word() as u8));
            Variant::HostAdded
        }
        _ => {
            job.truncate(random.below(job.len() + 1));
            Variant::HostPrefix
        }
    };
    bytes(variant, job, case.asked, random)
}
