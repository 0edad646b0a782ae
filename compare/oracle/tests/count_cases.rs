//! The lines that the proved program `count_cases` writes, each by the harness's checked operations.

use std::fs;
use std::path::Path;

use job::build::integer_words;
use oracle::counts;

/// The integer of a literal's three words, if it is one.
fn integer(words: &[u32]) -> Option<i64> {
    let bits = u64::from(words[2]) << 32 | u64::from(words[1]);
    (words[0] == 2).then_some(bits as i64)
}

/// What a kind gives for so many arguments, of which these are the first; no kind takes three.
fn value(kind: u32, count: usize, first: [Option<i64>; 2]) -> Option<i64> {
    let arguments: Option<Vec<i64>> = first.get(..count)?.iter().copied().collect();
    counts::value(kind, &arguments?)
}

/// One and the value's two words, or zeros.
fn words_of(value: Option<i64>) -> [u32; 3] {
    value.map_or([0; 3], |value| {
        let [_, low, high] = integer_words(value);
        [1, low, high]
    })
}

#[test]
fn each_line_is_what_the_checked_operations_give() {
    let file = Path::new(env!("CARGO_MANIFEST_DIR")).join("../../crates/count_cases/stdout");
    let text = fs::read_to_string(file).expect("the program's lines");
    let mut values = 0;
    for line in text.lines() {
        let words: Vec<u32> = line
            .split(' ')
            .map(|word| word.parse().expect("a word"))
            .collect();
        let first = [&words[2..5], &words[5..8]].map(integer);
        let expected = words_of(value(words[0], words[1] as usize, first));
        assert_eq!(words[8..], expected, "{line}");
        values += expected[0];
    }
    assert_eq!((text.lines().count(), values), (1_540, 926));
}
