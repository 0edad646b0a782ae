//! The first seeds: no difference, and every variant and every number comes up.

use at_scale::{Call, Variant, compare_range};
use tools::fixed_list::numbers;

const SEEDS: u64 = 2_000;
/// Of a seed: eleven for its job, eleven for its counting job, four with other indexes for one of the two.
const CALLS: u64 = 26;
/// Of every second seed, for its job with conditions.
const CONDITION_CALLS: u64 = 8;

#[test]
fn no_difference_in_the_first_seeds() {
    let tally = match compare_range(0, SEEDS, Call::by_library) {
        Ok(tally) => tally,
        Err(report) => panic!("{report}"),
    };
    assert_eq!((tally.seeds, tally.too_many_steps), (SEEDS, 0));
    let made = CALLS * SEEDS + CONDITION_CALLS * SEEDS / 2;
    assert_eq!(tally.numbers.values().sum::<u64>(), made);
    let seen: Vec<u32> = tally.numbers.keys().copied().collect();
    let mut expected = numbers();
    expected.extend([11, 12]);
    expected.sort();
    assert_eq!(seen, expected);
    for variant in Variant::ALL {
        let calls = tally.variants.get(&variant).copied().unwrap_or(0);
        assert!(calls >= SEEDS / 10, "{variant:?}: {calls}");
    }
}
