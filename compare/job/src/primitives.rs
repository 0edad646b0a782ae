//! The kinds of primitives.

/// Over 64-bit integer literals, computed instead of looked up: first + second.
pub const SUM: u32 = 4;
/// First - second.
pub const DIFFERENCE: u32 = 5;
pub const PRODUCT: u32 = 6;
/// Of one argument; the others have two.
pub const NEGATION: u32 = 7;
/// First / second, rounded toward zero.
pub const QUOTIENT: u32 = 8;

/// The five that compute.
pub const COUNTING: [u32; 5] = [SUM, DIFFERENCE, PRODUCT, NEGATION, QUOTIENT];

/// 0 to 8.
pub fn known(kind: u32) -> bool {
    kind <= QUOTIENT
}

/// Its values are the job's rows.
pub fn looks_rows_up(kind: u32) -> bool {
    matches!(kind, 1 | 3)
}

pub fn counts(kind: u32) -> bool {
    COUNTING.contains(&kind)
}

pub fn has_validator(kind: u32) -> bool {
    looks_rows_up(kind) || counts(kind)
}

/// Its output is of a container sort.
pub fn gives_containers(kind: u32) -> bool {
    matches!(kind, 2 | 3)
}
