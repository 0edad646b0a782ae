//! The command line program, and the bench jobs' answers in their order.

use std::fs;
use std::path::Path;

use job::Tables;
use job::modes::{PLAIN, STRICT};
use oracle::check_bytes_mode;
use tools::{bench_jobs, doubling, program, to_bytes};

/// What `checkproof` prints for a job.
fn printed(bytes: &[u8]) -> String {
    program::printed(env!("CARGO_BIN_EXE_checkproof"), bytes)
}

/// The bytes of a bench job, which are those of its file.
#[track_caller]
fn example(tables: &Tables, file: &str) -> Vec<u8> {
    let examples = Path::new(env!("CARGO_MANIFEST_DIR")).join("../../examples");
    let bytes = to_bytes(&tables.words());
    assert!(fs::read(examples.join(file)).expect("the example") == bytes);
    bytes
}

#[test]
fn checkproof_on_job_a() {
    let job = to_bytes(&bench_jobs::job_a().words());
    assert_eq!(printed(&job), "0 1 0 0 2 0 0 0\n");
}

#[test]
fn checkproof_on_tilt_counts() {
    let job = example(&bench_jobs::tilt(), "tilt.bin");
    assert_eq!(printed(&job), "0 11 7 5 3 0 0 0\n");
}

/// In mode 0 both steps are accepted, in strict mode the first alone.
#[test]
fn checkproof_on_the_east_flank() {
    let job = example(&bench_jobs::east_flank(), "east_flank.bin");
    assert_eq!(printed(&job), "0 5 3 1 1 0 0 0\n");
    for (asked, mode, expected) in [
        (1, PLAIN, [0, 5, 2, 0, 1, 0, 0, 0]),
        (3, PLAIN, [0, 5, 3, 1, 1, 0, 0, 0]),
        (1, STRICT, [0, 5, 2, 0, 1, 0, 0, 0]),
        (3, STRICT, [46, 5, 6, 0, 0, 0, 0, 0]),
        (3, 2, [11, 0, 0, 0, 0, 0, 0, 0]),
    ] {
        let mut answer = [7; 8];
        check_bytes_mode(&job, asked, mode, &mut answer).expect("few steps");
        assert_eq!(answer, expected);
    }
}

#[test]
fn checkproof_on_no_job() {
    assert_eq!(printed(&[]), "1 0 0 0 0 0 0 0\n");
    assert_eq!(printed(&[0; 48]), "3 0 0 0 0 0 0 0\n");
    assert_eq!(printed(&[0; 47]), "1 0 0 0 0 0 0 0\n");
}

#[test]
fn bench_jobs_in_their_order() {
    let answers: Vec<Vec<u32>> = bench_jobs::cases()
        .iter()
        .map(|case| case.judge().expect("few steps").answer.to_vec())
        .collect();
    let expected: [[u32; 8]; 19] = [
        [0, 1, 0, 0, 2, 0, 0, 0],
        [0, 4, 0, 1, 1, 0, 0, 0],
        [0, 4, 0, 0, 1, 0, 0, 0],
        [0, 4, 2, 2, 1, 0, 0, 0],
        [33, 4, 0, 3, 3, 0, 0, 0],
        [0, 4, 0, 0, 2, 0, 0, 0],
        [21, 4, 2, 1, 0, 0, 0, 0],
        [20, 4, 1, 0, 1, 1, 0, 0],
        [0, 4, 2, 3, 2, 0, 0, 0],
        [23, 4, 2, 1, 1, 0, 0, 0],
        [24, 4, 2, 1, 0, 0, 0, 0],
        [25, 4, 2, 2, 3, 0, 0, 0],
        [26, 4, 2, 0, 0, 0, 0, 0],
        [41, 4, 0, 0, 0, 0, 0, 0],
        [53, 3, 8, 0, 0, 0, 0, 0],
        [53, 3, 8, 0, 0, 0, 0, 0],
        [25, 4, 2, 2, 3, 0, 0, 0],
        [0, 5, 0, 1, 1, 0, 0, 0],
        [6, 0, 7, 0, 0, 0, 0, 0],
    ];
    assert_eq!(answers, expected);
}

/// What the Rust answers at a few levels; the program doubling is held to the same at 60, where the Rust would walk 2^60 paths.
#[test]
fn jobs_that_double() {
    for levels in [1, 2, 10] {
        let answers: Vec<[u32; 8]> = doubling::cases(levels)
            .iter()
            .map(|case| case.judge().expect("few steps").answer)
            .collect();
        assert_eq!(answers, doubling::answers(levels as u32));
    }
}

#[test]
fn what_doubling_reads_and_prints() {
    let program = Path::new(env!("CARGO_MANIFEST_DIR")).join("../../crates/doubling");
    let list = fs::read(program.join("stdin")).expect("the list");
    assert!(
        list == to_bytes(&doubling::list(60)),
        "the list made anew differs"
    );
    let lines: String = doubling::answers(60)
        .iter()
        .map(|answer| answer.map(|word| word.to_string()).join(" ") + "\n")
        .collect();
    let printed = fs::read_to_string(program.join("stdout")).expect("the stored output");
    assert_eq!(printed, lines);
}
