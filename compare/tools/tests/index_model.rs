//! The index by its model: how many comparisons it takes to load the request's terms, and jobs whose terms
//! have one slot.

use std::collections::BTreeSet;

use generator::{Random, job};
use job::build::integer_words;
use job::limits::{CELLS, PROGRAM_BYTES, PROGRAM_CELLS, PROGRAM_INDEX, TERMS};
use job::{Job, Table, Tables};
use tools::colliding::{self, added_calls, last_calls};
use tools::index_model::{Index, MULTIPLIER, Mix};

/// Of request Q-4: the integers 0 to 4,999 and name 4 of each, into so many slots.
const INTEGERS: u32 = 5_000;
const SLOTS: usize = 32_768;
/// The request's bound.
const FEW: u64 = 20_000;
/// What loading takes where the lent word is 0; the proved program counts the same.
const COMPARISONS: u64 = 2_164;
/// The same where each integer is followed by its application.
const IN_TURN: u64 = 2_096;
/// The most for 1,000 random words.
const MOST: u64 = 2_421;
/// For the largest store.
const MOST_SLOTS: usize = 131_072;

/// All integers, then all applications.
fn request_terms() -> Vec<u32> {
    let mut tables = Tables::default();
    for value in 0..INTEGERS {
        tables.term_integer(i64::from(value));
    }
    for integer in 0..INTEGERS {
        tables.term_application(4, &[integer]);
    }
    tables.words()
}

/// Words that a host may lend.
fn random_words(count: usize) -> Vec<u32> {
    let mut random = Random::new(4);
    (0..count).map(|_| random.word() as u32).collect()
}

fn comparisons(word: u32, slots: usize, job: &[u32]) -> u64 {
    Index::of_job(word, slots, job).comparisons
}

#[test]
fn the_request_s_terms() {
    assert_eq!(comparisons(0, SLOTS, &request_terms()), COMPARISONS);
}

/// Each integer is followed by its application: the terms have other numbers.
#[test]
fn the_request_s_terms_in_turn() {
    let load = |word: u32| {
        let mut index = Index::new(word, SLOTS);
        for value in 0..INTEGERS {
            let integer = index.add(0, &integer_words(i64::from(value)));
            index.add(2, &[4, integer as u32]);
        }
        assert_eq!(index.len(), 2 * INTEGERS as usize);
        index.comparisons
    };
    assert_eq!(load(0), IN_TURN);
    for word in random_words(100) {
        assert!((1..FEW).contains(&load(word)), "{word}");
    }
}

/// Other words lead to other counts, and none to many more.
#[test]
fn the_request_s_terms_for_random_words() {
    let job = request_terms();
    let counts = random_words(1_000).into_iter();
    let counts: BTreeSet<u64> = counts.map(|word| comparisons(word, SLOTS, &job)).collect();
    let most = *counts.last().expect("a count");
    assert!(counts.len() > 100 && most < FEW);
    assert_eq!(most, MOST);
}

/// By hand, in wider numbers: name 4 of term 3.
#[test]
fn a_mix_by_hand() {
    let modulus = 1u64 << 32;
    for word in [0, 1, 0x8000_0000, u32::MAX] {
        let multiplier = (2_654_435_761 + 2 * u64::from(word)) % modulus;
        let times = |a: u64, b: u64| (a * b % modulus + a * b / modulus * 5) % modulus;
        let mixed = times(2 + 4, times(multiplier, multiplier)) + times(3, multiplier);
        let mixed = mixed % modulus;
        let squared = mixed * ((2 * mixed + 1) % modulus) % modulus;
        let mixed = squared * 2_654_435_761 % modulus;
        let mix = Mix::new(word);
        assert_eq!(u64::from(mix.of(2, &[4, 3])), mixed);
        for slots in [1, 2, 8_192, MOST_SLOTS] {
            let slot = mix.slot(2, &[4, 3], slots);
            assert_eq!(slot as u64, mixed / (modulus / slots as u64));
        }
    }
}

/// A word that gives a wanted mix does, wherever it stands; each step back finds one for about half of the mixes.
#[test]
fn words_for_a_mix() {
    let (mut found, mut asked) = (0, 0);
    for word in random_words(50) {
        let mix = Mix::new(word);
        for wanted in random_words(200) {
            let places: [(u32, &[u32], &[u32]); 6] = [
                (1, &[], &[]),
                (0, &[2, 7], &[]),
                (0, &[2], &[9]),
                (2, &[], &[7]),
                (2, &[], &[7, 9]),
                (2, &[4, 5, 6], &[7, 8, 9]),
            ];
            for (kind, before, behind) in places {
                asked += 1;
                if let Some(free) = mix.word_for(kind, before, behind, wanted) {
                    found += 1;
                    let words = [before, &[free], behind].concat();
                    assert_eq!(mix.of(kind, &words), wanted);
                }
            }
        }
    }
    assert!(asked == 60_000 && found > 25_000, "{found}");
}

/// A term is found where it was listed, round the end too, and listed once.
#[test]
fn look_ups_in_a_small_index() {
    for word in random_words(200) {
        let mut index = Index::new(word, 16);
        for _ in 0..2 {
            for name in 0..8 {
                assert_eq!(index.add(1, &[name]), name as usize);
            }
        }
        assert_eq!(index.len(), 8);
        assert!(index.comparisons >= 8);
    }
}

/// Counts by the model for the word 0, and the most for 100 others.
fn for_0_and_others(count: impl Fn(u32) -> u64) -> (u64, u64) {
    let others = random_words(100).into_iter().map(&count);
    (count(0), others.max().expect("a count"))
}

/// Loading compares each term with all before it where the word is 0, and with hardly any for others.
#[test]
fn terms_of_one_slot() {
    for (terms, slots) in [
        (PROGRAM_CELLS as u32, PROGRAM_INDEX),
        (TERMS, SLOTS),
        (TERMS, MOST_SLOTS),
    ] {
        let job = colliding::terms(terms).words();
        let (aimed, others) = for_0_and_others(|word| comparisons(word, slots, &job));
        let all = u64::from(terms);
        assert_eq!(aimed, all * (all - 1) / 2);
        assert!(aimed > 1_000_000 && others < FEW);
    }
}

/// What some evaluations of all of a job's calls take, behind loading its terms.
fn evaluations(word: u32, slots: usize, job: &[u32], times: usize) -> u64 {
    let mut index = Index::of_job(word, slots, job);
    let loaded = index.comparisons;
    let job = Job::read(job).expect("a job");
    for _ in 0..times {
        let mut terms: Vec<u32> = Vec::new();
        for cell in job.cells(Table::Expressions) {
            let mut words = cell.words.to_vec();
            if cell.kind == 2 {
                let children = words[1..].iter_mut();
                children.for_each(|child| *child = terms[*child as usize]);
            }
            terms.push(index.add(cell.kind, &words) as u32);
        }
    }
    index.comparisons - loaded
}

/// A rule that looks its calls up again and again does so in one slot where the word is 0.
#[test]
fn calls_of_one_slot() {
    let added = added_calls(2_560, 770).words();
    assert!(4 * added.len() <= PROGRAM_BYTES);
    let (aimed, others) = for_0_and_others(|word| evaluations(word, PROGRAM_INDEX, &added, 1));
    assert!(aimed > 2_000_000 && others < FEW);
    let last = last_calls(TERMS as usize, 3_824, 1).words();
    let (aimed, others) = for_0_and_others(|word| evaluations(word, MOST_SLOTS, &last, 1));
    assert!(aimed > 50_000_000 && others < FEW);
}

/// How many of a table's keys the fullest slot has, among as many slots as keys.
fn fullest(word: u32, keys: &[Vec<u32>]) -> usize {
    let mix = Mix::new(word);
    let mut slots = vec![0; keys.len()];
    for key in keys {
        slots[mix.key_slot(key[0], &key[1..], keys.len())] += 1;
    }
    slots.into_iter().max().expect("a slot")
}

/// Names and rows of one slot where the word is 0 have many slots for other words.
#[test]
fn tables_of_one_slot() {
    let all = CELLS as usize;
    let names = colliding::table_names();
    let ends = colliding::row_ends(&[0; 6], all, 4_200);
    let names: Vec<Vec<u32>> = names.into_iter().map(|name| vec![name]).collect();
    let rows: Vec<Vec<u32>> = ends
        .iter()
        .map(|ends| [&[0; 7], &ends[..]].concat())
        .collect();
    for keys in [names, rows] {
        let different: BTreeSet<&Vec<u32>> = keys.iter().collect();
        assert_eq!((keys.len(), different.len()), (all, all));
        let (aimed, others) = for_0_and_others(|word| fullest(word, &keys) as u64);
        assert!(aimed == u64::from(CELLS) && others < 20, "{others}");
    }
}

/// Other names make a generated job's terms meet in the wanted slot, and change no number.
#[test]
fn renamed_jobs() {
    let (mut met, mut renamed) = (0, 0);
    for seed in 0..300 {
        let case = job(seed).with_fewest_slots();
        let number = case.judge().expect("few steps").number();
        let word = seed as u32 * 77;
        let Some(other) = colliding::renamed(&case.job, word, case.index, case.index - 1) else {
            continue;
        };
        let words = Job::read(&other).expect("a job");
        let mix = Mix::new(word);
        let aimed = words.cells(Table::Terms).filter(|cell| {
            matches!(cell.kind, 1 | 2)
                && mix.slot(cell.kind, cell.words, case.index) == case.index - 1
        });
        met += usize::from(aimed.count() > 1);
        renamed += usize::from(other != case.job);
        let case = generator::Case { job: other, ..case };
        assert_eq!(case.judge().expect("few steps").number(), number);
    }
    assert!(met > 150 && renamed > 200, "{met} {renamed}");
}

/// So many terms in groups of 2^(32 - k), by the numbers of group and member.
fn in_groups(k: u32, term: impl Fn(&mut Tables, u32, u32)) -> Vec<u32> {
    let members = (1u64 << (32 - k)).min(PROGRAM_CELLS as u64) as u32;
    let mut tables = Tables::default();
    for group in 0..PROGRAM_CELLS as u32 / members {
        (0..members).for_each(|member| term(&mut tables, group, member));
    }
    tables.words()
}

/// Integers of which the high word takes away what multiples of 2^k in the low word add to the mix, for the
/// multiplier that this coefficient is: wholly, and of its upper half alone.
fn integers_by_chance(k: u32, coefficient: u32) -> [Vec<u32>; 2] {
    let integers = |shift: u32| {
        in_groups(k, |tables, group, member| {
            let added = (member << k).wrapping_mul(coefficient) >> shift;
            tables.term_literal([2, member << k | group, added.wrapping_neg()]);
        })
    };
    [integers(0), integers(16)]
}

/// The same of calls: the second argument takes away what multiples of 2^k add in the name.
fn calls_by_chance(k: u32, coefficient: u32) -> Vec<u32> {
    in_groups(k, |tables, group, member| {
        let added = (member << k).wrapping_mul(coefficient) >> 16;
        tables.term_application(4 + group + (member << k), &[0, u32::from(u16::MAX) - added]);
    })
}

/// Calls whose arguments have one sum, are alike, or follow each other.
fn calls_in_a_row() -> [Vec<u32>; 3] {
    let calls = |arguments: fn(u32) -> Vec<u32>| {
        let mut tables = Tables::default();
        for number in 0..PROGRAM_CELLS as u32 {
            tables.term_application(4, &arguments(number));
        }
        tables.words()
    };
    [
        calls(|number| vec![number, PROGRAM_CELLS as u32 - number]),
        calls(|number| vec![number; 16]),
        calls(|number| (number..number + 16).collect()),
    ]
}

/// Who does not know the word cannot aim: for no word are there many more comparisons than terms.
#[test]
fn aiming_without_the_word() {
    let mut jobs = calls_in_a_row().to_vec();
    for k in 16..32 {
        for coefficient in [1, 9, MULTIPLIER] {
            jobs.extend(integers_by_chance(k, coefficient));
            jobs.push(calls_by_chance(k, coefficient));
        }
    }
    for job in jobs {
        for word in random_words(40) {
            let count = comparisons(word, PROGRAM_INDEX, &job);
            assert!(count < PROGRAM_CELLS as u64, "{word} {count}");
        }
    }
}
