//! The primitives that compute, by the library and by the Rust: each kind on every pair of arguments, on
//! one, on none and on three, with room for the result and without.

use std::collections::BTreeMap;

use at_scale::{Call, Input, Judge, Source, Variant};
use generator::{Case, EXTREMES};
use job::Tables;
use job::primitives::COUNTING;

const F: u32 = 4;
const NAME: u32 = 9;
/// Literals that are no integers.
const OTHERS: [[u32; 3]; 3] = [[0, 0, 0], [1, 1, 0], [3, 2, 0]];
/// Every integer of the extremes, these literals, and an application.
const ARGUMENTS: usize = EXTREMES.len() + OTHERS.len() + 1;
/// Cells and pool words: ample; none for a result after two new arguments; too few words for it.
const ROOMS: [(usize, usize); 3] = [(8, 32), (3, 32), (8, 11)];

fn argument(tables: &mut Tables, place: usize) -> u32 {
    match place.checked_sub(EXTREMES.len()) {
        None => tables.integer(EXTREMES[place]),
        Some(other) if other < OTHERS.len() => tables.literal(OTHERS[other]),
        Some(_) => tables.constructor(F, &[]),
    }
}

/// A global call of these arguments, and the fiat of a string.
fn call(kind: u32, places: &[usize]) -> Vec<u32> {
    let mut tables = Tables::default();
    tables.term_literal([3, 5, 0]);
    let primitive = tables.primitive(kind, NAME);
    let arguments: Vec<u32> = places
        .iter()
        .map(|&place| argument(&mut tables, place))
        .collect();
    let call = tables.primitive_call(primitive, &arguments);
    tables.expression_action(call);
    tables.globals = 1;
    tables.fiat((0, 0));
    tables.words()
}

/// The library leaves what the Rust leaves, whatever room there is; the numbers are counted.
fn compare(kind: u32, places: &[usize], numbers: &mut BTreeMap<u32, usize>) {
    for (cells, pool) in ROOMS {
        let call = Call {
            source: Source::CountingJob,
            variant: Variant::AsMade,
            judge: Judge::Rust,
            input: Input::Words(Case::new(call(kind, places), 0, cells, pool)),
            answer: 8,
            scratches: vec![kind],
        };
        let expected = call.by_rust().expect("few steps");
        assert_eq!(call.by_library(kind), expected, "kind {kind} of {places:?}");
        *numbers.entry(expected.number).or_default() += 1;
    }
}

#[test]
fn each_kind_on_all_arguments() {
    let mut numbers = BTreeMap::new();
    oracle::on_deep_stack(|| {
        for kind in COUNTING {
            compare(kind, &[], &mut numbers);
            for first in 0..ARGUMENTS {
                compare(kind, &[first], &mut numbers);
                compare(kind, &[first, first, first], &mut numbers);
                for second in 0..ARGUMENTS {
                    compare(kind, &[first, second], &mut numbers);
                }
            }
        }
    });
    assert_eq!(numbers.keys().copied().collect::<Vec<_>>(), [0, 46, 53]);
    assert!(numbers.values().all(|&count| count > 1_000), "{numbers:?}");
}
