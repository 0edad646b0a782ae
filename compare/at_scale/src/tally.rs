//! What a run compared, counted.

use std::collections::BTreeMap;

use crate::variants::Variant;

/// How many seeds and calls were compared, and with what result.
#[derive(Clone, Default, PartialEq, Eq, Debug)]
pub struct Tally {
    pub seeds: u64,
    /// Calls by their number.
    pub numbers: BTreeMap<u32, u64>,
    /// Calls by why they were made.
    pub variants: BTreeMap<Variant, u64>,
    /// Calls to which the Rust has no answer.
    pub too_many_steps: u64,
}

impl Tally {
    /// Counts a call that was compared.
    pub fn count(&mut self, variant: Variant, number: u32) {
        *self.numbers.entry(number).or_default() += 1;
        *self.variants.entry(variant).or_default() += 1;
    }

    /// This and what another thread counted.
    pub fn and(mut self, other: &Tally) -> Tally {
        self.seeds += other.seeds;
        self.too_many_steps += other.too_many_steps;
        for (&number, count) in &other.numbers {
            *self.numbers.entry(number).or_default() += count;
        }
        for (&variant, count) in &other.variants {
            *self.variants.entry(variant).or_default() += count;
        }
        self
    }

    /// One line for people.
    pub fn summary(&self) -> String {
        let among = |wanted: fn(u32) -> bool| -> u64 {
            let numbers = self.numbers.iter();
            numbers
                .filter(|&(&number, _)| wanted(number))
                .map(|(_, count)| count)
                .sum()
        };
        format!(
            "{} seeds, {} calls, no difference: {} answered 0, {} below 20, {} from 20 up; {} distinct numbers; {} without the Rust's answer (too many steps)",
            self.seeds,
            among(|_| true),
            among(|number| number == 0),
            among(|number| (1..20).contains(&number)),
            among(|number| number >= 20),
            self.numbers.len(),
            self.too_many_steps,
        )
    }

    /// How often each number was the answer and each variant was called.
    pub fn details(&self) -> String {
        let numbers = self.numbers.iter();
        let variants = self.variants.iter();
        numbers
            .map(|(number, count)| format!("{number:>3} {count:>8}\n"))
            .chain(variants.map(|(variant, count)| format!("{variant:?} {count}\n")))
            .collect()
    }
}
