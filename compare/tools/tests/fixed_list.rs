//! The fixed list is what its command makes, and says what it should.

use std::collections::BTreeSet;
use std::fs;
use std::path::{Path, PathBuf};

use tools::fixed_list::{COUNT, description, entries, numbers, read, words};
use tools::{to_bytes, to_words};

fn data(file: &str) -> PathBuf {
    Path::new(env!("CARGO_MANIFEST_DIR"))
        .join("../data")
        .join(file)
}

#[test]
fn made_anew_it_is_the_same() {
    let entries = entries();
    let list = fs::read(data("fixed_list.bin")).expect("the list");
    assert!(to_bytes(&words(&entries)) == list, "the list differs");
    let text = fs::read_to_string(data("fixed_list.txt")).expect("the text");
    assert_eq!(description(&entries), text);
}

#[test]
fn the_program_replay_is_given_the_same() {
    let given = Path::new(env!("CARGO_MANIFEST_DIR")).join("../../crates/replay/stdin");
    assert!(
        fs::read(given).expect("what the program is given")
            == fs::read(data("fixed_list.bin")).expect("the list"),
        "copy data/fixed_list.bin to crates/replay/stdin"
    );
}

#[test]
fn read_back_it_is_what_the_rust_says() {
    let list = read(&to_words(
        &fs::read(data("fixed_list.bin")).expect("the list"),
    ));
    assert_eq!(list.len(), COUNT);
    for entry in &list {
        let outcome = entry.case.judge().expect("few steps");
        assert_eq!(outcome.answer, entry.answer);
        assert_eq!(outcome.kinds[..outcome.terms()], entry.kinds);
        assert_eq!(outcome.ends[..outcome.terms()], entry.ends);
        assert_eq!(outcome.pool[..outcome.pool_words()], entry.pool);
    }
}

#[test]
fn every_number_is_among_them_and_no_job_is_long() {
    let list = read(&to_words(
        &fs::read(data("fixed_list.bin")).expect("the list"),
    ));
    let seen: BTreeSet<u32> = list.iter().map(|entry| entry.answer[0]).collect();
    assert_eq!(seen.into_iter().collect::<Vec<_>>(), numbers());
    assert!(list.iter().all(|entry| entry.case.job.len() < 4_096));
}
