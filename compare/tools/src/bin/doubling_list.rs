//! Writes the jobs that double 60 times, for the program doubling: doubling_list FILE.

use std::{env, fs};

use tools::{doubling, to_bytes};

fn main() {
    let file = env::args().nth(1).expect("doubling_list FILE");
    fs::write(file, to_bytes(&doubling::list(60))).expect("a list that can be written");
}
