//! The mode of a check, and the facts to which it makes a difference.

use crate::conditions::is_condition;
use crate::layout::{Job, Table};

/// As the Rust checks: a bare container condition passes unevaluated.
pub const PLAIN: u32 = 0;
/// A bare container condition is evaluated as an equality's side is; it binds nothing.
pub const STRICT: u32 = 1;

/// 0 or 1.
pub fn known(mode: u32) -> bool {
    mode <= STRICT
}

/// The numbers of the facts that are bare container conditions; needs formed ends.
pub fn bare_containers(job: &Job) -> Vec<u32> {
    let is_bare = |number: u32| job.cell(Table::Facts, number as usize).kind == 1;
    (0..job.count(Table::Facts) as u32)
        .filter(|&number| is_bare(number) && is_condition(job, number))
        .collect()
}
