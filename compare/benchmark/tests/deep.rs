//! The deepest jobs, and hostile ones at the limits, answer on a stack smaller than the one that a program usually has.

use std::thread;

use benchmark::hostile::{Deep, all, by_bytes, by_words};
use benchmark::lent::{Entry, Lent};
use generator::Case;
use job::limits::PROGRAM_BYTES;

/// What README.md says is enough.
const ENOUGH: usize = 6 << 20;

/// Those that document 01's reader would try first: deep at every step, doubling, long tables.
const HOSTILE: [&str; 4] = [
    "head 4,095 calls deep",
    "head doubling 4,095 times",
    "16,384 terms alike",
    "4,096 of each table",
];

/// Those for which a height could be counted too often, or for too many proofs; and the height.
const HEIGHTS: [(&str, u32); 4] = [
    ("proofs doubling 4,094 times", 4_095),
    ("premises times 16, 4,095 times", 4_096),
    ("proofs that nothing needs, 4,096 premises", 1),
    ("4,094 steps that nothing needs, 4,096 rules", 1),
];

/// The answer on a stack of 6 MiB; an overflow ends the test.
fn answer(case: &Case, entry: Entry) -> [u32; 8] {
    let mut lent = Lent::new(case);
    thread::scope(|scope| {
        thread::Builder::new()
            .stack_size(ENOUGH)
            .spawn_scoped(scope, || lent.ours(entry))
            .expect("a thread")
            .join()
            .expect("an answer");
    });
    lent.answer
}

fn all_accepted(jobs: Vec<Deep>, entry: Entry) {
    for deep in jobs {
        assert_eq!(answer(&deep.case, entry)[0], 0, "{}", deep.name);
    }
}

#[test]
fn deepest_by_words() {
    all_accepted(by_words(), Entry::Words);
}

#[test]
fn deepest_by_bytes() {
    all_accepted(by_bytes(), Entry::Bytes);
}

/// What the hostile job of this name is answered with all its steps.
fn hostile_answer(name: &str) -> [u32; 8] {
    let hostile = all().into_iter().find(|hostile| hostile.name == name);
    let hostile = hostile.expect("a job of this name");
    answer(&hostile.case(hostile.most), Entry::Words)
}

#[test]
fn hostile_by_words() {
    for name in HOSTILE {
        assert_eq!(hostile_answer(name)[0], 0, "{name}");
    }
}

/// No job with all its steps is refused when it is loaded, by its entry.
#[test]
fn hostile_admitted() {
    for hostile in all() {
        let case = hostile.case(hostile.most);
        let lent = job::Lent {
            kinds: case.kinds,
            ends: case.ends,
            pool: case.pool,
            index: case.index,
            scratch: case.scratch,
        };
        let refusal = job::refusal(&case.job, case.asked, case.mode, &lent);
        assert_eq!(refusal, None, "{}", hostile.name);
        let bytes = 4 * case.job.len();
        let fits = hostile.entry == Entry::Words || bytes <= PROGRAM_BYTES;
        assert!(fits, "{}: {bytes}", hostile.name);
    }
}

/// Each job is accepted with one step, but the one that has too many premises.
#[test]
fn hostile_with_one_step() {
    let accepted = |name: &str| name != "4,096 premises";
    for hostile in all().into_iter().filter(|hostile| accepted(hostile.name)) {
        let answer = answer(&hostile.case(1), hostile.entry);
        assert_eq!(answer[0], 0, "{}", hostile.name);
    }
}

#[test]
fn hostile_heights() {
    for (name, height) in HEIGHTS {
        let answer = hostile_answer(name);
        assert_eq!((answer[0], answer[4]), (0, height), "{name}");
    }
}
