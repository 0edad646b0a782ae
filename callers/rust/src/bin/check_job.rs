//! Checks a job with all entries and prints the eight words of the answer: check_job FILE [ASKED [MODE]].
//! Without ASKED it asks for the job's last proof, without MODE in mode 0. `check_bytes` is called in mode 0 only.
//!
//!     cargo run --offline --bin check_job -- ../../examples/job_a.bin
//!     cargo run --offline --bin check_job -- ../../examples/east_flank.bin 3 1

use std::process::ExitCode;
use std::{env, fs};

use sizercobalt::{ANSWER, BYTES, CELLS, Mode, POOL, check, check_bytes, check_bytes_mode, slots};

/// Where the number of proofs stands among a job's words.
const PROOFS: usize = 10;
/// Scratch for the host's number of cells and the largest number of proofs.
const SCRATCH: usize = 2 * (CELLS + 4_096);

fn main() -> ExitCode {
    match run() {
        Ok(answer) => {
            println!("{}", answer.map(|word| word.to_string()).join(" "));
            ExitCode::SUCCESS
        }
        Err(message) => {
            eprintln!("check_job: {message}");
            ExitCode::FAILURE
        }
    }
}

/// The answer that all entries give, or why there is none.
fn run() -> Result<[u32; ANSWER], String> {
    let arguments: Vec<String> = env::args().skip(1).collect();
    let (file, asked, mode) = match &arguments[..] {
        [file] => (file, None, None),
        [file, asked] => (file, Some(asked), None),
        [file, asked, mode] => (file, Some(asked), Some(mode)),
        _ => return Err("check_job FILE [ASKED [MODE]]".to_string()),
    };
    let bytes = fs::read(file).map_err(|error| format!("{file}: {error}"))?;
    let words = words_of_bytes(&bytes);
    let last = words.get(PROOFS).copied().unwrap_or(0).saturating_sub(1);
    let asked = number(asked, last)?;
    let mode = number(mode, Mode::Plain.into())?;
    let mut answer = [0; ANSWER];
    check_bytes_mode(&bytes, asked, mode, &mut answer);
    let lent = check_lent(&words, asked, mode);
    let plain = match mode == Mode::Plain.into() {
        true => check_plain(&bytes, asked),
        false => answer,
    };
    match [lent, plain] == [answer; 2] {
        true => Ok(answer),
        false => Err("the entries disagree".to_string()),
    }
}

/// The number that the text is, or the default without one.
fn number(text: Option<&String>, default: u32) -> Result<u32, String> {
    match text {
        Some(text) => text.parse().map_err(|error| format!("{text}: {error}")),
        None => Ok(default),
    }
}

/// The words of a job's bytes. What is no whole number of words, or more than the host entries take,
/// becomes an empty job: all entries answer 1.
fn words_of_bytes(bytes: &[u8]) -> Vec<u32> {
    let (words, rest) = bytes.as_chunks();
    match rest.is_empty() && bytes.len() <= BYTES {
        true => words.iter().copied().map(u32::from_le_bytes).collect(),
        false => Vec::new(),
    }
}

/// The answer of the entry without a mode.
fn check_plain(bytes: &[u8], asked: u32) -> [u32; ANSWER] {
    let mut answer = [0; ANSWER];
    check_bytes(bytes, asked, &mut answer);
    answer
}

/// The answer with a lent store. What the lent words hold before makes no difference.
fn check_lent(words: &[u32], asked: u32, mode: u32) -> [u32; ANSWER] {
    let lent = |length| vec![0xa5a5_a5a5; length];
    let mut answer = [0; ANSWER];
    check(
        words,
        asked,
        mode,
        &mut lent(CELLS),
        &mut lent(CELLS),
        &mut lent(POOL),
        &mut lent(slots(CELLS)),
        &mut lent(SCRATCH),
        &mut answer,
    );
    answer
}
