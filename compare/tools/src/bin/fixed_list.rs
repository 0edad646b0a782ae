//! Writes the fixed list and the text beside it: fixed_list [directory].

use std::fs;
use std::path::PathBuf;

use tools::{fixed_list, to_bytes};

fn main() {
    let directory = match std::env::args().nth(1) {
        Some(directory) => PathBuf::from(directory),
        None => PathBuf::from("data"),
    };
    let entries = fixed_list::entries();
    let bytes = to_bytes(&fixed_list::words(&entries));
    fs::write(directory.join("fixed_list.bin"), &bytes).expect("a list that can be written");
    let text = fixed_list::description(&entries);
    fs::write(directory.join("fixed_list.txt"), &text).expect("a text that can be written");
    print!("{text}");
}
