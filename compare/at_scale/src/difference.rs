//! Where two outcomes differ.

use crate::call::Left;

/// A part of what a call returns and leaves.
#[derive(Clone, Copy, PartialEq, Eq, Debug)]
pub enum Part {
    Number,
    Answer,
    Kinds,
    Ends,
    Pool,
}

/// The first word in which two outcomes differ; `None` stands for a word that is not there.
#[derive(Clone, Copy, PartialEq, Eq, Debug)]
pub struct Difference {
    pub part: Part,
    pub place: usize,
    pub expected: Option<u32>,
    pub found: Option<u32>,
}

/// The first difference: of the numbers, then the answers, then the three arrays.
pub fn difference(expected: &Left, found: &Left) -> Option<Difference> {
    let parts = [
        (Part::Number, &[expected.number][..], &[found.number][..]),
        (Part::Answer, &expected.answer, &found.answer),
        (Part::Kinds, &expected.kinds, &found.kinds),
        (Part::Ends, &expected.ends, &found.ends),
        (Part::Pool, &expected.pool, &found.pool),
    ];
    parts
        .into_iter()
        .find(|(_, expected, found)| expected != found)
        .map(|(part, expected, found)| first(part, expected, found))
}

/// The first difference of two lists of words that are not equal.
fn first(part: Part, expected: &[u32], found: &[u32]) -> Difference {
    let alike = expected.iter().zip(found).take_while(|(a, b)| a == b);
    let place = alike.count();
    Difference {
        part,
        place,
        expected: expected.get(place).copied(),
        found: found.get(place).copied(),
    }
}

#[cfg(test)]
mod tests {
    use super::*;

    fn left() -> Left {
        Left {
            number: 25,
            answer: vec![25, 4, 2, 2, 3, 0, 0, 0],
            kinds: vec![0, 0, 2, 2, 91],
            ends: vec![3, 6, 8, 10, 92],
            pool: vec![2, 7, 0, 2, 8, 0, 4, 0, 4, 1, 93, 94],
        }
    }

    fn words(left: &mut Left, part: Part) -> &mut [u32] {
        match part {
            Part::Number => std::slice::from_mut(&mut left.number),
            Part::Answer => &mut left.answer,
            Part::Kinds => &mut left.kinds,
            Part::Ends => &mut left.ends,
            Part::Pool => &mut left.pool,
        }
    }

    #[test]
    fn equal_outcomes() {
        assert_eq!(difference(&left(), &left()), None);
    }

    #[test]
    fn a_planted_difference_in_every_word() {
        for part in [
            Part::Number,
            Part::Answer,
            Part::Kinds,
            Part::Ends,
            Part::Pool,
        ] {
            for place in 0..words(&mut left(), part).len() {
                let mut found = left();
                let word = &mut words(&mut found, part)[place];
                let expected = Some(*word);
                *word ^= 1;
                let planted = Difference {
                    part,
                    place,
                    expected,
                    found: Some(*word),
                };
                assert_eq!(difference(&left(), &found), Some(planted));
            }
        }
    }

    #[test]
    fn the_first_of_two() {
        let mut found = left();
        found.pool[11] = 0;
        found.pool[4] = 9;
        found.ends[4] = 0;
        let first = difference(&left(), &found).expect("a difference");
        assert_eq!((first.part, first.place), (Part::Ends, 4));
        found.ends[4] = 92;
        let first = difference(&left(), &found).expect("a difference");
        assert_eq!((first.part, first.place), (Part::Pool, 4));
    }

    #[test]
    fn a_word_more_or_less() {
        let mut found = left();
        found.answer.push(0);
        let longer = difference(&left(), &found).expect("a difference");
        assert_eq!((longer.part, longer.place), (Part::Answer, 8));
        assert_eq!((longer.expected, longer.found), (None, Some(0)));
    }
}
