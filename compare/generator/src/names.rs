//! Names for heads, variables, rules and primitives.

use crate::random::Random;

/// How names of different use lie to each other.
#[derive(Clone, Copy, Debug)]
pub enum Names {
    /// Apart, past the reserved ones.
    Apart,
    /// All from 0 up: reserved names and equal names in different uses.
    Overlapping,
    /// At the upper end of the words.
    High,
}

pub const OLD: u32 = 0;
pub const NEW: u32 = 1;

impl Names {
    pub fn any(random: &mut Random) -> Names {
        match random.below(8) {
            0 => Names::Overlapping,
            1 => Names::High,
            _ => Names::Apart,
        }
    }

    fn name(self, apart: u32, place: usize) -> u32 {
        let place = place as u32;
        match self {
            Names::Apart => apart + place,
            Names::Overlapping => place,
            Names::High => u32::MAX - place,
        }
    }

    pub fn head(self, place: usize) -> u32 {
        self.name(4, place)
    }

    pub fn variable(self, place: usize) -> u32 {
        self.name(20, place)
    }

    pub fn rule(self, place: usize) -> u32 {
        self.name(5_000, place)
    }

    pub fn primitive(self, place: usize) -> u32 {
        self.name(100, place)
    }
}
