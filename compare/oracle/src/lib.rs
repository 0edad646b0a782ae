//! egglog's `check_proof` as the judge of a job.
//!
//! The published text stands in `egglog/`. `proof_checker.rs` and `proof_format.rs` are compiled
//! whole from there; `termdag.rs` of this crate holds the reached items of the published one,
//! word for word. The modules `ast`, `core`, `generic_ast`, `numeric_id`, `typechecking`, `util`
//! and `proofs::proof_encoding_helpers` are shims for what the text imports and is not published.

extern crate self as egglog_ast;
extern crate self as egglog_numeric_id;

pub mod ast;
pub mod core;
pub mod generic_ast;
mod numeric_id;
pub mod proofs;
pub mod termdag;
pub mod typechecking;
pub mod util;

mod answer;
mod check;
pub mod counts;
mod expressions;
mod height;
mod names;
mod panics;
mod program;
mod store;
mod strict;

pub use crate::core::ResolvedCall;
pub use check::{TooManySteps, check, check_bytes, check_bytes_mode, check_here, on_deep_stack};
pub use generic_ast::Literal;
pub use numeric_id::{DenseIdMap, NumericId};
pub use termdag::{Term, TermDag, TermId};
