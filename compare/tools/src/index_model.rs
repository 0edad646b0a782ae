//! The index of request Q-4 once more, to count comparisons: the mix, a term's slot, look-ups, and words
//! that give a term a wanted mix.

use job::{Job, OwnedCell, Table};

/// The multiplier where the lent word is 0, and what a last word without another has beside it.
pub const MULTIPLIER: u32 = 2_654_435_761;

/// A product is taken modulo 2^32 less this, a prime.
const LESS: u32 = 5;
const PRIME: u64 = (1 << 32) - LESS as u64;

/// The mix that a lent word gives.
#[derive(Clone, Copy, PartialEq, Eq, Debug)]
pub struct Mix {
    multiplier: u32,
    square: u32,
}

impl Mix {
    /// By the word that the index's first slot holds when it is lent.
    pub fn new(word: u32) -> Mix {
        let twice = word.wrapping_mul(2);
        let multiplier = MULTIPLIER.wrapping_add(twice);
        Mix {
            multiplier,
            square: times(multiplier, multiplier),
        }
    }

    fn stirred(self, mixed: u32, [first, second]: [u32; 2]) -> u32 {
        let product = times(mixed.wrapping_add(first), self.square);
        product.wrapping_add(times(second, self.multiplier))
    }

    /// What is stirred to this with these two words; for about half there is nothing.
    fn unstirred(self, mixed: u32, [first, second]: [u32; 2]) -> Option<u32> {
        let product = mixed.wrapping_sub(times(second, self.multiplier));
        Some(divided(product, self.square)?.wrapping_sub(first))
    }

    /// What words are stirred to, starting from a kind or from what pairs of words before were stirred to.
    pub fn all_stirred(self, kind: u32, words: &[u32]) -> u32 {
        let stir = |mixed, words| self.stirred(mixed, pair(words));
        words.chunks(2).fold(kind, stir)
    }

    /// The mix of a term.
    pub fn of(self, kind: u32, words: &[u32]) -> u32 {
        spread(self.all_stirred(kind, words))
    }

    /// A term's slot among so many.
    pub fn slot(self, kind: u32, words: &[u32], slots: usize) -> usize {
        let slots = (slots as u64).min(1 << 32);
        let scaled = u64::from(self.of(kind, words)) * slots;
        (scaled >> 32) as usize
    }

    /// The slot of a table's key, a head and arguments.
    pub fn key_slot(self, head: u32, arguments: &[u32], slots: usize) -> usize {
        self.slot(self.all_stirred(0, &[head]), arguments, slots)
    }

    /// The word between those before and those behind with which a term has this mix, if there is one.
    pub fn word_for(self, kind: u32, before: &[u32], behind: &[u32], mix: u32) -> Option<u32> {
        let (pairs, first) = before.split_at(before.len() / 2 * 2);
        let start = self.all_stirred(kind, pairs);
        let (second, rest) = behind.split_at(behind.len().min(1 - first.len()));
        let unstir = |mixed, words| self.unstirred(mixed, pair(words));
        let mixed = rest.chunks(2).rev().try_fold(unspread(mix), unstir)?;
        match first {
            [] => self.unstirred(mixed, pair(&[&[start], second].concat())),
            [first, ..] => {
                let product = mixed.wrapping_sub(self.stirred(start, [*first, 0]));
                divided(product, self.multiplier)
            }
        }
    }
}

/// Two words, or the last one and what it has beside it.
fn pair(words: &[u32]) -> [u32; 2] {
    [words[0], words.get(1).copied().unwrap_or(MULTIPLIER)]
}

/// The product modulo the prime, but for the carries.
fn times(a: u32, b: u32) -> u32 {
    let product = u64::from(a) * u64::from(b);
    let upper = (product >> 32) as u32;
    (product as u32).wrapping_add(upper.wrapping_mul(LESS))
}

/// A word whose product with an odd one is this, among those that it may be for so many carries.
fn divided(product: u32, odd: u32) -> Option<u32> {
    let inverse = inverse(u64::from(odd));
    let sums = (0..=LESS).map(|carries| u64::from(product) + u64::from(LESS * carries));
    let mut words = sums.map(|sum| (sum % PRIME * inverse % PRIME) as u32);
    words.find(|&word| times(word, odd) == product)
}

/// What is done when all words are stirred in.
fn spread(mixed: u32) -> u32 {
    let odd = mixed.wrapping_mul(2).wrapping_add(1);
    mixed.wrapping_mul(odd).wrapping_mul(MULTIPLIER)
}

/// What is spread to this, bit by bit from the lowest: a bit of the square changes no lower one.
fn unspread(mix: u32) -> u32 {
    let set = |mixed: u32, bit: u32| {
        let differ = spread(mixed) ^ mix;
        mixed | (differ & 1 << bit)
    };
    (0..32).fold(0, set)
}

/// The number that this one is multiplied with to give 1 modulo the prime: its power by two less.
fn inverse(number: u64) -> u64 {
    let (mut power, mut square) = (1, number % PRIME);
    for bit in 0..32 {
        if (PRIME - 2) >> bit & 1 == 1 {
            power = power * square % PRIME;
        }
        square = square * square % PRIME;
    }
    power
}

/// An index with the terms that it lists.
#[derive(Clone, Debug)]
pub struct Index {
    mix: Mix,
    /// The number of a term plus one, or 0.
    slots: Vec<usize>,
    terms: Vec<OwnedCell>,
    /// How often a term was compared with one that is listed.
    pub comparisons: u64,
}

impl Index {
    /// An index of so many slots that lists nothing.
    pub fn new(word: u32, slots: usize) -> Index {
        Index {
            mix: Mix::new(word),
            slots: vec![0; slots],
            terms: Vec::new(),
            comparisons: 0,
        }
    }

    /// The index after a job's terms were loaded.
    pub fn of_job(word: u32, slots: usize, job: &[u32]) -> Index {
        let mut index = Index::new(word, slots);
        let job = Job::read(job).expect("a job");
        for cell in job.cells(Table::Terms) {
            index.add(cell.kind, cell.words);
        }
        index
    }

    /// The number of a term, which is listed now if it was not before.
    pub fn add(&mut self, kind: u32, words: &[u32]) -> usize {
        let mut slot = self.mix.slot(kind, words, self.slots.len());
        while self.slots[slot] != 0 {
            let number = self.slots[slot] - 1;
            let listed = &self.terms[number];
            self.comparisons += 1;
            if listed.kind == kind && listed.words == words {
                return number;
            }
            slot = (slot + 1) % self.slots.len();
        }
        let words = words.to_vec();
        self.terms.push(OwnedCell { kind, words });
        self.slots[slot] = self.terms.len();
        self.terms.len() - 1
    }

    /// A term is listed round the end, before its own slot.
    pub fn goes_round(&self) -> bool {
        let own = |number: usize| {
            let term = &self.terms[number];
            self.mix.slot(term.kind, &term.words, self.slots.len())
        };
        let full = self
            .slots
            .iter()
            .enumerate()
            .filter(|(_, entry)| **entry > 0);
        full.into_iter().any(|(slot, &entry)| own(entry - 1) > slot)
    }

    /// How many terms are listed.
    pub fn len(&self) -> usize {
        self.terms.len()
    }

    pub fn is_empty(&self) -> bool {
        self.terms.is_empty()
    }
}
