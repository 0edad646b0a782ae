//! What the primitives of kinds 4 to 8 give: worked out in 128 bits, then held to the range of 64.

use job::primitives::{DIFFERENCE, NEGATION, PRODUCT, QUOTIENT, SUM};

const LEAST: i128 = -(1 << 63);
const GREATEST: i128 = (1 << 63) - 1;

/// Integers near which a result begins to fit or a word begins to carry.
pub const EXTREMES: [i64; 31] = [
    i64::MIN,
    i64::MIN + 1,
    i64::MIN + 2,
    i64::MAX,
    i64::MAX - 1,
    i64::MAX - 2,
    -1,
    0,
    1,
    (1 << 31) - 1,
    1 << 31,
    (1 << 31) + 1,
    -(1 << 31) - 1,
    -(1 << 31),
    1 - (1 << 31),
    (1 << 32) - 1,
    1 << 32,
    (1 << 32) + 1,
    -(1 << 32) - 1,
    -(1 << 32),
    1 - (1 << 32),
    3_037_000_499,
    3_037_000_500,
    -3_037_000_499,
    -3_037_000_500,
    1 << 62,
    -(1 << 62),
    (1 << 62) - 1,
    -(1 << 62) - 1,
    i64::MAX / 2 + 2,
    i64::MIN / 2 - 2,
];

/// The integer that a literal's three words stand for.
pub fn integer(words: &[u32]) -> Option<i128> {
    match *words {
        [2, low, high] => {
            let value = i128::from(high) << 32 | i128::from(low);
            Some(if value > GREATEST {
                value - (1 << 64)
            } else {
                value
            })
        }
        _ => None,
    }
}

fn in_range(value: i128) -> Option<i128> {
    (LEAST..=GREATEST).contains(&value).then_some(value)
}

/// The result of a kind from 4 to 8; `None` where there is none.
pub fn result(kind: u32, arguments: &[i128]) -> Option<i128> {
    let exact = match (kind, arguments) {
        (SUM, [first, second]) => first + second,
        (DIFFERENCE, [first, second]) => first - second,
        (PRODUCT, [first, second]) => first * second,
        (NEGATION, [only]) => -only,
        (QUOTIENT, [first, second]) if *second != 0 => {
            let size = first.abs() / second.abs();
            size * first.signum() * second.signum()
        }
        _ => return None,
    };
    in_range(exact)
}

/// Arguments with this result, the second as given where that can be; the dividend has no remainder
/// or the most that there can be.
pub fn arguments_for(kind: u32, wanted: i128, other: i128, most: bool) -> Option<Vec<i128>> {
    let arguments = match kind {
        SUM => vec![wanted - other, other],
        DIFFERENCE => vec![wanted + other, other],
        PRODUCT if other != 0 && wanted % other == 0 => vec![wanted / other, other],
        PRODUCT if other < 0 => vec![-1, -wanted],
        PRODUCT => vec![wanted, 1],
        NEGATION => vec![-wanted],
        _ => {
            let sign = if wanted * other < 0 { -1 } else { 1 };
            let remainder = sign * (other.abs() - 1) * i128::from(most);
            vec![wanted * other + remainder, other]
        }
    };
    let fit = arguments.iter().all(|&value| in_range(value).is_some());
    (fit && result(kind, &arguments) == Some(wanted)).then_some(arguments)
}
