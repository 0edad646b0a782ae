//! The programs checkproof and modes by the Rust, and what a program prints.

use std::io::{ErrorKind, Write};
use std::process::{Command, Stdio};

use job::limits::ANSWER;
use oracle::{TooManySteps, check_bytes_mode};

use crate::to_words;

/// A program's answer to an input in a mode: its own store, and the last proof; without proofs 3.
pub fn answer(input: &[u8], mode: u32) -> Result<[u32; ANSWER], TooManySteps> {
    let proofs = to_words(input).get(10).copied().unwrap_or(0);
    let mut answer = [0; ANSWER];
    check_bytes_mode(input, proofs.wrapping_sub(1), mode, &mut answer)?;
    Ok(answer)
}

/// What a program prints for an input, of which it need not read all. It has no environment, which
/// would take room on its stack.
pub fn printed(program: &str, input: &[u8]) -> String {
    let mut child = Command::new(program)
        .env_clear()
        .stdin(Stdio::piped())
        .stdout(Stdio::piped())
        .spawn()
        .expect("the program");
    match child.stdin.take().expect("its input").write_all(input) {
        Err(error) if error.kind() != ErrorKind::BrokenPipe => panic!("{error}"),
        _ => {}
    }
    let output = child.wait_with_output().expect("its output");
    assert!(output.status.success(), "{}", output.status);
    String::from_utf8(output.stdout).expect("text")
}
