//! The hostile jobs whose terms, names or rows have one slot where the word is 0: each twice, and alike but for the
//! time.

use benchmark::hostile::{Hostile, all};
use benchmark::lent::{Lent, WORD};
use oracle::on_deep_stack;

/// The jobs aimed at the word 0, each with the one of the other word.
fn pairs() -> Vec<[&'static Hostile; 2]> {
    let jobs = all().into_iter();
    let colliding: Vec<&Hostile> = jobs
        .filter(|job| job.name.contains("of one slot"))
        .collect();
    let (pairs, rest) = colliding.as_chunks();
    assert!(pairs.len() == 9 && rest.is_empty());
    pairs.to_vec()
}

#[test]
fn words_and_names() {
    for [aimed, other] in pairs() {
        assert_eq!([aimed.word, other.word], [0, WORD]);
        let name = aimed.name.strip_suffix("word 0").expect("the word");
        assert_eq!(other.name, format!("{name}other word"));
        assert_eq!(aimed.most, other.most);
        assert_eq!(aimed.case(1), other.case(1));
    }
}

/// All steps, but a few where each looks thousands of rows up.
fn steps(job: &Hostile) -> usize {
    match job.name.contains("rows") {
        true => 10,
        false => job.most,
    }
}

/// With one step both answer alike; with more the other word accepts.
#[test]
fn answers() {
    on_deep_stack(|| {
        for [aimed, other] in pairs() {
            let answer = |job: &Hostile, steps: usize| {
                let case = job.case(steps);
                let mut lent = Lent::with_word(&case, job.word);
                lent.ours(job.entry);
                lent.answer
            };
            assert_eq!(answer(aimed, 1), answer(other, 1));
            let steps = steps(other);
            let more = answer(other, steps);
            let height = if steps > 1 { steps + 1 } else { 1 };
            assert_eq!((more[0], more[4] as usize), (0, height), "{}", other.name);
        }
    });
}
