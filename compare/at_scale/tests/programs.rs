//! The callers in C and in Rust, built and run as a newcomer would, and the proved program.

use std::fs;
use std::path::{Path, PathBuf};
use std::process::{Command, Output};
use std::time::{Duration, Instant};

use generator::{condition_job, counting_job, holding_job, job};
use job::Tables;
use job::limits::PROGRAM_BYTES;
use job::modes::PLAIN;
use tools::{colliding, print, program, to_bytes};

fn root() -> PathBuf {
    Path::new(env!("CARGO_MANIFEST_DIR")).join("../..")
}

fn temporary(file: &str) -> PathBuf {
    Path::new(env!("CARGO_TARGET_TMPDIR")).join(file)
}

/// Builds a C program over the header and the library.
fn built_c(source: &str, program: &str) -> PathBuf {
    let program = temporary(program);
    let status = Command::new("cc")
        .args(["-std=c11", "-Wall", "-Wextra", "-Werror", "-pedantic"])
        .arg("-I")
        .arg(root().join("include"))
        .arg(root().join(source))
        .arg(root().join("target/staticlib/libhost.a"))
        .arg("-o")
        .arg(&program)
        .status()
        .expect("cc");
    assert!(status.success(), "{source} is not built");
    program
}

/// Builds the caller in Rust.
fn built_rust() -> PathBuf {
    let target = temporary("callers");
    let status = Command::new(env!("CARGO"))
        .args(["build", "--offline", "--quiet", "--bin", "check_job"])
        .arg("--manifest-path")
        .arg(root().join("callers/rust/Cargo.toml"))
        .arg("--target-dir")
        .arg(&target)
        .status()
        .expect("cargo");
    assert!(status.success(), "callers/rust is not built");
    target.join("debug/check_job")
}

fn run(program: &Path, arguments: &[&str]) -> Output {
    let mut command = Command::new(program);
    command.env_clear().current_dir(root().join("examples"));
    command.args(arguments).output().expect("the program")
}

#[track_caller]
fn prints(program: &Path, arguments: &[&str], line: &str) {
    let output = run(program, arguments);
    assert_eq!(String::from_utf8_lossy(&output.stdout), line);
    assert_eq!(String::from_utf8_lossy(&output.stderr), "");
    assert_eq!(output.status.code(), Some(0));
}

/// Status 1, a message, and no answer.
#[track_caller]
fn fails(program: &Path, arguments: &[&str]) {
    let output = run(program, arguments);
    assert_eq!(String::from_utf8_lossy(&output.stdout), "");
    assert!(output.stderr.starts_with(b"check_job: "));
    assert_eq!(output.status.code(), Some(1));
}

/// Accepted, refused from 20 up and below 20, no job, and what cannot be asked.
fn behaves(program: &Path, name: &str) {
    prints(program, &["job_a.bin"], "0 1 0 0 2 0 0 0\n");
    prints(program, &["job_a.bin", "0"], "0 1 0 0 1 0 0 0\n");
    prints(program, &["job_b.bin"], "26 4 12 0 0 0 0 0\n");
    prints(program, &["job_b.bin", "7"], "20 4 7 0 1 1 0 0\n");
    prints(program, &["job_b.bin", "4294967295"], "3 0 0 0 0 0 0 0\n");
    behaves_in_modes(program);
    let whole = filled(PROGRAM_BYTES);
    let longer = filled(PROGRAM_BYTES + 4);
    let inputs = [
        (&deepest()[..], "0 1 0 0 2336 0 0 0\n"),
        (&whole, "0 3274 0 0 1 0 0 0\n"),
        (&longer, "1 0 0 0 0 0 0 0\n"),
        (&whole[1..], "1 0 0 0 0 0 0 0\n"),
        (&[0; 48], "3 0 0 0 0 0 0 0\n"),
        (&[0; 49], "1 0 0 0 0 0 0 0\n"),
        (&[], "1 0 0 0 0 0 0 0\n"),
    ];
    for (place, (bytes, line)) in inputs.into_iter().enumerate() {
        let file = temporary(&format!("{name}_{place}.bin"));
        fs::write(&file, bytes).expect("a file");
        prints(program, &[file.to_str().expect("a name")], line);
    }
    let file = temporary(&format!("{name}_one_slot.bin"));
    fs::write(&file, one_slot()).expect("a file");
    quick(|| prints(program, &[file.to_str().expect("a name")], ONE_SLOT));
    fails(program, &["missing.bin"]);
    fails(program, &["."]);
    fails(program, &[]);
    fails(program, &["job_a.bin", "0", "0", "0"]);
    for text in ["", "x", "-1", "4294967296", "1x"] {
        fails(program, &["job_a.bin", text]);
        fails(program, &["job_a.bin", "0", text]);
    }
}

/// Jobs A and B alike in both modes, the east flank not; other modes are 11, behind 3.
fn behaves_in_modes(program: &Path) {
    for mode in ["0", "1"] {
        prints(program, &["job_a.bin", "1", mode], "0 1 0 0 2 0 0 0\n");
        prints(program, &["job_b.bin", "7", mode], "20 4 7 0 1 1 0 0\n");
        prints(program, &["job_b.bin", "13", mode], "3 0 0 0 0 0 0 0\n");
        prints(program, &["east_flank.bin", "1", mode], "0 5 2 0 1 0 0 0\n");
    }
    prints(program, &["east_flank.bin"], "0 5 3 1 1 0 0 0\n");
    prints(program, &["east_flank.bin", "3", "0"], "0 5 3 1 1 0 0 0\n");
    prints(program, &["east_flank.bin", "3", "1"], "46 5 6 0 0 0 0 0\n");
    for mode in ["2", "256", "257", "4294967295"] {
        prints(
            program,
            &["east_flank.bin", "3", mode],
            "11 0 0 0 0 0 0 0\n",
        );
        prints(program, &["east_flank.bin", "4", mode], "3 0 0 0 0 0 0 0\n");
    }
}

#[test]
fn the_caller_in_c() {
    behaves(&built_c("callers/c/check_job.c", "check_job"), "c");
}

#[test]
fn the_caller_in_rust() {
    behaves(&built_rust(), "rust");
}

#[test]
fn null_pointers() {
    let program = built_c("compare/at_scale/tests/nothing_lent.c", "nothing_lent");
    prints(&program, &[], "10 1 10 1 1 10 1 10 10 11 ");
}

/// A job of so many bytes that is accepted where it is not too long: literals, variables, one fiat.
fn filled(bytes: usize) -> Vec<u8> {
    let words = bytes / 4 - 16;
    let fits = |variables: &usize| (words - 3 * variables).is_multiple_of(5);
    let variables = (0..5).find(fits).expect("a number of variables");
    let mut tables = Tables::default();
    for value in 0..(words - 3 * variables) / 5 {
        tables.term_integer(value as i64);
    }
    for name in 0..variables {
        tables.term_variable(name as u32);
    }
    tables.fiat((0, 0));
    let job = to_bytes(&tables.words());
    assert_eq!(job.len(), bytes);
    job
}

/// The most rule steps one under another that 65,536 bytes hold, seven words each. They take nearly
/// all of the 8 MiB of stack that a program usually has.
fn deepest() -> Vec<u8> {
    let mut tables = Tables::default();
    let term = tables.term_integer(1);
    let expression = tables.integer(1);
    let fact = tables.bare(expression);
    let head = tables.expression_action(expression);
    tables.rule(4, &[fact], &[head]);
    let mut proof = tables.fiat((term, term));
    while 4 * (tables.words().len() + 7) <= PROGRAM_BYTES {
        proof = tables.rule_step((term, term), 4, &[proof], &[]);
    }
    to_bytes(&tables.words())
}

/// A job whose calls have one slot of the index where the word is 0, and its answer.
fn one_slot() -> Vec<u8> {
    to_bytes(&colliding::added_calls(2_560, 770).words())
}

const ONE_SLOT: &str = "0 2732 0 0 771 0 0 0\n";

/// With the word 0 each entry takes longer for that job than all may take here.
fn quick(run: impl FnOnce()) {
    let started = Instant::now();
    run();
    let took = started.elapsed();
    assert!(took < Duration::from_secs(5), "{took:?}");
}

/// What a proved program prints.
#[track_caller]
fn printed(program: &str, input: &[u8]) -> String {
    let path = root().join("target/bin").join(program);
    assert!(
        path.exists(),
        "there is no target/bin/{program}: run `scripts/build` first"
    );
    program::printed(path.to_str().expect("a name"), input)
}

/// The proved program prints what the Rust says.
#[track_caller]
fn program_agrees(input: &[u8]) {
    let expected = program::answer(input, PLAIN).expect("few steps");
    assert_eq!(
        printed("checkproof", input),
        print::answer(&expected) + "\n"
    );
}

/// The jobs that stand in examples/.
fn examples() -> Vec<Vec<u8>> {
    ["job_a.bin", "job_b.bin", "tilt.bin", "east_flank.bin"]
        .map(|file| fs::read(root().join("examples").join(file)).expect("an example"))
        .into()
}

#[test]
fn the_program_on_the_examples_and_no_job() {
    for example in examples() {
        program_agrees(&example);
    }
    program_agrees(&[]);
    program_agrees(&[0; 47]);
    program_agrees(&[0; 48]);
}

#[test]
fn the_program_on_long_inputs() {
    for bytes in [PROGRAM_BYTES, PROGRAM_BYTES + 4] {
        program_agrees(&filled(bytes));
    }
    let mut longer = filled(PROGRAM_BYTES);
    longer.push(0);
    program_agrees(&longer);
    program_agrees(&vec![0; 200_000]);
}

#[test]
fn the_program_on_the_deepest_job() {
    program_agrees(&deepest());
}

/// It takes a word from the system's source of randomness.
#[test]
fn the_program_on_a_job_of_one_slot() {
    quick(|| assert_eq!(printed("checkproof", &one_slot()), ONE_SLOT));
}

#[test]
fn the_program_on_a_job_cut_off() {
    let jobs = (0..).map(|seed| to_bytes(&holding_job(seed).job));
    let job = jobs
        .into_iter()
        .find(|job| job.len() > 5_000)
        .expect("a job");
    for length in (0..job.len()).step_by(97) {
        program_agrees(&job[..length]);
    }
    program_agrees(&job);
}

#[test]
fn the_program_on_generated_jobs() {
    for made in [job, counting_job, condition_job] {
        let jobs = (0..).map(|seed| to_bytes(&made(seed).job));
        let short = jobs.filter(|job| job.len() <= PROGRAM_BYTES);
        for job in short.take(300) {
            program_agrees(&job);
        }
    }
}
