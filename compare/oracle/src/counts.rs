//! The validators of the primitives that compute with 64-bit integers, by Rust's checked operations.

use std::sync::Arc;

use job::primitives::{DIFFERENCE, NEGATION, PRODUCT, QUOTIENT, SUM};

use crate::generic_ast::Literal;
use crate::termdag::{Term, TermDag, TermId};
use crate::typechecking::PrimitiveValidator;

/// The validator of a kind from 4 to 8: it adds its result where there is one.
pub fn validator(kind: u32) -> PrimitiveValidator {
    Arc::new(move |term_dag: &mut TermDag, arguments: &[TermId]| {
        let integers: Option<Vec<i64>> = arguments
            .iter()
            .map(|&argument| integer(term_dag.term(argument)))
            .collect();
        let result = value(kind, &integers?)?;
        Some(term_dag.lit(Literal::Int(result)))
    })
}

fn integer(term: &Term) -> Option<i64> {
    match term {
        Term::Lit(Literal::Int(value)) => Some(*value),
        _ => None,
    }
}

/// What a kind gives: `None` for another count of arguments, a result that does not fit, or a divisor 0.
pub fn value(kind: u32, arguments: &[i64]) -> Option<i64> {
    match (kind, arguments) {
        (SUM, [first, second]) => first.checked_add(*second),
        (DIFFERENCE, [first, second]) => first.checked_sub(*second),
        (PRODUCT, [first, second]) => first.checked_mul(*second),
        (NEGATION, [only]) => only.checked_neg(),
        (QUOTIENT, [first, second]) => first.checked_div(*second),
        _ => None,
    }
}
