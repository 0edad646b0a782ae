//! The slots of the lent index: so many that they are taken, or so many that 12 refuses them.

use job::limits::index_slots;

use crate::case::Case;
use crate::random::Random;

/// One case of so many has an index that 12 refuses.
const REFUSED: usize = 50;

/// The case with an index, and what it holds before.
pub fn with_index(case: Case, random: &mut Random) -> Case {
    let index = match random.once_in(REFUSED) {
        true => refused(case.kinds, random),
        false => taken(case.kinds, random),
    };
    Case {
        index,
        index_fill: random.word() as u32,
        ..case
    }
}

/// The fewest slots for C cells, or a few times as many.
pub fn taken(cells: usize, random: &mut Random) -> usize {
    index_slots(cells) * random.pick(&[1, 1, 1, 1, 2, 4, 8, 16])
}

/// Too few, or no power of two; some are just beside a number that is taken.
pub fn refused(cells: usize, random: &mut Random) -> usize {
    let fewest = index_slots(cells);
    match random.below(11) {
        0 => 0,
        1 => 1,
        2 => (2 * cells).saturating_sub(1),
        3 => 2 * cells + 1,
        4 => 3 * cells,
        5 => fewest / 2,
        6 => fewest - 1,
        7 => fewest + 1,
        8 => 2 * fewest - 1,
        9 => 3 * fewest,
        _ => random.below(2 * cells + 1) | 1,
    }
}
