//! Shim for egglog's `typechecking`: the type of a validator.

use std::sync::Arc;

use crate::termdag::{TermDag, TermId};

pub type PrimitiveValidator = Arc<dyn Fn(&mut TermDag, &[TermId]) -> Option<TermId> + Send + Sync>;
