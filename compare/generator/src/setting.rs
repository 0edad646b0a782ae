//! What a case has beside what every case has, and its mode.

use job::modes::{PLAIN, STRICT};

use crate::random::Random;

/// Modes that are refused: their low byte or their low bit may be that of one that is not.
pub const OTHER_MODES: [u32; 8] = [2, 3, 255, 256, 257, 65_536, 1 << 31, u32::MAX];

#[derive(Clone, Copy, Default, Debug)]
pub struct Setting {
    /// Primitives of kinds 4 to 8.
    pub counting: bool,
    /// Bare container conditions with values.
    pub conditions: bool,
    pub mode: u32,
}

impl Setting {
    pub fn counting() -> Setting {
        Setting {
            counting: true,
            ..Setting::default()
        }
    }

    /// Conditions, in every second case with primitives that compute, mostly in strict mode.
    pub fn with_conditions(random: &mut Random) -> Setting {
        Setting {
            counting: random.once_in(2),
            conditions: true,
            mode: match random.below(25) {
                0 | 1 => PLAIN,
                2 | 3 => random.pick(&OTHER_MODES),
                _ => STRICT,
            },
        }
    }
}
