//! The job layout of document 01: reading it, writing it, and the refusals 1 to 12.

pub mod build;
pub mod conditions;
pub mod layout;
pub mod limits;
pub mod load;
pub mod modes;
pub mod primitives;
pub mod tables;

pub use layout::{Cell, Job, Sizes, Table};
pub use load::{Lent, Refusal, refusal};
pub use tables::{OwnedCell, Tables};
