//! The proved library against the Rust, call by call: the number returned, the answer and every lent word.

mod call;
mod difference;
mod index_calls;
mod mode_calls;
mod progress;
mod run;
mod tally;
mod variants;

pub use call::{Call, Input, Judge, Left};
pub use difference::{Difference, Part, difference};
pub use progress::with_progress;
pub use run::{Report, compare_range, compare_range_counting};
pub use tally::Tally;
pub use variants::{Source, Variant, calls};
