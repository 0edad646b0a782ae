//! What the fixed list tells of mistaken ways to count heights.

#[path = "../../oracle/tests/height_mistakes/mod.rs"]
mod height_mistakes;

use std::fs;
use std::path::Path;

use height_mistakes::{Accepted, MISTAKES};
use tools::fixed_list::{Read, TELLING, TELLING_HEIGHTS, read};
use tools::to_words;

/// The jobs that are accepted.
fn accepted() -> Vec<Read> {
    let file = Path::new(env!("CARGO_MANIFEST_DIR")).join("../data/fixed_list.bin");
    let list = read(&to_words(&fs::read(file).expect("the list")));
    let accepted = list.into_iter().filter(|entry| entry.answer[0] == 0);
    accepted.collect()
}

/// The job has another height by this way to count.
fn tells(entry: &Read, height: impl Fn(&Accepted) -> u32) -> bool {
    let case = &entry.case;
    height(&Accepted::new(&case.job, case.asked, case.mode)) != entry.answer[4]
}

/// The seeds that are said to tell of a mistake.
fn seeds(mistake: &str) -> Vec<u64> {
    let lines = TELLING.iter().chain(TELLING_HEIGHTS);
    let seeds = lines.filter(|(name, _)| *name == mistake);
    seeds.flat_map(|(_, seeds)| seeds.to_vec()).collect()
}

/// Seeds are said to tell of a mistake where a job of the list does, and the job of each does.
#[test]
fn heights() {
    let list = accepted();
    for (mistake, height) in MISTAKES {
        let seeds = seeds(mistake);
        let told = list.iter().any(|entry| tells(entry, height));
        assert_eq!(told, !seeds.is_empty(), "{mistake}");
        for seed in seeds {
            let job = generator::job(seed).job;
            let entry = list.iter().find(|entry| entry.case.job == job);
            assert!(
                tells(entry.expect("a job of the list"), height),
                "{mistake}"
            );
        }
    }
}

#[test]
fn heights_without_a_mistake() {
    let list = accepted();
    assert!(
        !list
            .iter()
            .any(|entry| tells(entry, |it| it.right_height()))
    );
}

/// Each line about heights is of a mistake that is made.
#[test]
fn lines_about_heights() {
    let lines = TELLING.iter().chain(TELLING_HEIGHTS);
    for (name, _) in lines.filter(|(name, _)| name.contains("height")) {
        assert!(
            MISTAKES.iter().any(|(mistake, _)| mistake == name),
            "{name}"
        );
    }
}
