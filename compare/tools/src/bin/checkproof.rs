//! The program by the Rust: a job on standard input, the eight words on standard output.

use std::io::Read;

use job::limits::PROGRAM_BYTES;
use job::modes::PLAIN;
use tools::{print, program};

fn main() {
    let mut input = Vec::new();
    std::io::stdin()
        .take(PROGRAM_BYTES as u64 + 1)
        .read_to_end(&mut input)
        .expect("a readable input");
    match program::answer(&input, PLAIN) {
        Ok(answer) => println!("{}", print::answer(&answer)),
        Err(_) => {
            eprintln!("too many steps");
            std::process::exit(1);
        }
    }
}
