//! From the text's result to the eight words.

use job::Job;
use job::limits::ANSWER;

use crate::NumericId;
use crate::height::height;
use crate::names::number as name;
use crate::panics::Unwound;
use crate::proofs::proof_checker::{ProofCheckError, ProofCheckErrorKind};
use crate::proofs::proof_format::{ProofId, Proposition};
use crate::termdag::TermId;

pub type Answer = [u32; ANSWER];

/// Number, terms in the store, fields.
pub fn words(number: u32, terms: usize, fields: &[u32]) -> Answer {
    let mut answer = [0; ANSWER];
    answer[0] = number;
    answer[1] = terms as u32;
    answer[2..2 + fields.len()].copy_from_slice(fields);
    answer
}

/// The answer 0: claimed left and right, height.
pub fn accepted(job: &Job, asked: u32, proved: &Proposition, terms: usize) -> Answer {
    let fields = [term(proved.lhs), term(proved.rhs), height(job, asked)];
    words(0, terms, &fields)
}

/// 51 to 53. Too many steps are no answer.
pub fn unwound(unwound: Unwound, terms: usize) -> Option<Answer> {
    match unwound {
        Unwound::MissingValidator(name) => Some(words(51, terms, &[name])),
        Unwound::CustomCall(name) => Some(words(52, terms, &[name])),
        Unwound::StoreFull(pool_words) => Some(words(53, terms, &[pool_words])),
        Unwound::TooManySteps => None,
    }
}

fn term(id: TermId) -> u32 {
    id as u32
}

fn proof(id: &ProofId) -> u32 {
    id.index() as u32
}

/// The number of a term, fact or expression that the text printed.
fn printed(text: &str) -> u32 {
    text.parse().expect("a number")
}

fn old_or_new(which: &str) -> u32 {
    match which {
        "old" => 0,
        "new" => 1,
        _ => panic!("neither old nor new: {which}"),
    }
}

/// 20 to 50.
pub fn refused(error: &ProofCheckError, terms: usize) -> Answer {
    let kind = error.kind();
    let (number, fields) = step_fields(kind)
        .or_else(|| rule_fields(kind))
        .or_else(|| merge_fields(kind))
        .or_else(|| author_fields(kind))
        .unwrap_or_else(|| panic!("an error of no number: {kind:?}"));
    words(number, terms, &fields)
}

type Fields = Option<(u32, Vec<u32>)>;

/// Fiat, transitivity, symmetry, congruence, normalisation, eval.
fn step_fields(kind: &ProofCheckErrorKind) -> Fields {
    use ProofCheckErrorKind as Kind;
    Some(match kind {
        Kind::TermMismatch {
            proof_id,
            expected_lhs,
            expected_rhs,
            actual_lhs,
            actual_rhs,
        } => {
            let claimed = [term(*expected_lhs), term(*expected_rhs)];
            let actual = [term(*actual_lhs), term(*actual_rhs)];
            let fields = [
                proof(proof_id),
                claimed[0],
                claimed[1],
                actual[0],
                actual[1],
            ];
            (20, fields.to_vec())
        }
        Kind::TransitivityMismatch {
            proof_id,
            left_rhs,
            right_lhs,
        } => (21, vec![proof(proof_id), term(*left_rhs), term(*right_lhs)]),
        Kind::CongruenceBaseNotApp { proof_id } => (22, vec![proof(proof_id)]),
        Kind::CongruenceChildIndexOutOfBounds {
            proof_id,
            child_index,
            num_children,
        } => {
            let fields = [proof(proof_id), *child_index as u32, *num_children as u32];
            (23, fields.to_vec())
        }
        Kind::CongruenceChildMismatch {
            proof_id,
            child_lhs,
            base_child,
            child_index,
        } => {
            let terms = [term(*child_lhs), term(*base_child)];
            let fields = [proof(proof_id), terms[0], terms[1], *child_index as u32];
            (24, fields.to_vec())
        }
        Kind::CongruenceResultMismatch {
            proof_id,
            proof_rhs,
            expected_rhs,
        } => {
            let fields = [proof(proof_id), term(*proof_rhs), term(*expected_rhs)];
            (25, fields.to_vec())
        }
        Kind::CongruenceLhsMismatch { proof_id } => (26, vec![proof(proof_id)]),
        Kind::InvalidFiat { proof_id, lhs, rhs } => {
            (33, vec![proof(proof_id), term(*lhs), term(*rhs)])
        }
        Kind::ContainerNormalizeMismatch {
            proof_id,
            raw,
            normalized,
            proof_rhs,
            lhs_ok,
        } => {
            let terms = [term(*raw), term(*normalized), term(*proof_rhs)];
            let agrees = u32::from(*lhs_ok);
            let fields = [proof(proof_id), terms[0], terms[1], terms[2], agrees];
            (40, fields.to_vec())
        }
        Kind::EvalOutsideSideCondition { proof_id } => (41, vec![proof(proof_id)]),
        _ => return None,
    })
}

/// A rule step: premises, facts, head.
fn rule_fields(kind: &ProofCheckErrorKind) -> Fields {
    use ProofCheckErrorKind as Kind;
    Some(match kind {
        Kind::RulePremiseCountMismatch {
            proof_id,
            rule_name,
            expected,
            actual,
        } => {
            let counts = [*expected as u32, *actual as u32];
            let fields = [proof(proof_id), name(rule_name), counts[0], counts[1]];
            (27, fields.to_vec())
        }
        Kind::FunctionFactMismatch {
            rule_name,
            expected,
            actual_lhs,
            actual_rhs,
        } => {
            let pair = [printed(actual_lhs), printed(actual_rhs)];
            (
                28,
                vec![name(rule_name), printed(expected), pair[0], pair[1]],
            )
        }
        Kind::EqualityFactMismatch {
            rule_name,
            fact,
            substituted_lhs,
            substituted_rhs,
            proven_lhs,
            proven_rhs,
        } => {
            let mut fields = vec![name(rule_name), printed(fact)];
            fields.extend([printed(substituted_lhs), printed(substituted_rhs)]);
            fields.extend([printed(proven_lhs), printed(proven_rhs)]);
            (29, fields)
        }
        Kind::FactMismatch {
            rule_name,
            fact,
            actual,
            expected,
            ..
        } => {
            let terms = [printed(actual), printed(expected)];
            (30, vec![name(rule_name), printed(fact), terms[0], terms[1]])
        }
        Kind::RuleHeadMismatch {
            rule_name,
            claimed_lhs,
            claimed_rhs,
            ..
        } => {
            let pair = [printed(claimed_lhs), printed(claimed_rhs)];
            (31, vec![name(rule_name), pair[0], pair[1]])
        }
        Kind::RuleNotFound { rule_name } => (32, vec![name(rule_name)]),
        Kind::SideConditionMismatch {
            rule_name,
            fact,
            lhs,
            rhs,
        } => {
            let values = [term(*lhs), term(*rhs)];
            (
                42,
                vec![name(rule_name), printed(fact), values[0], values[1]],
            )
        }
        _ => return None,
    })
}

/// A merge step.
fn merge_fields(kind: &ProofCheckErrorKind) -> Fields {
    use ProofCheckErrorKind as Kind;
    Some(match kind {
        Kind::MergeFnFunctionMismatch {
            proof_id,
            old_func,
            new_func,
        } => (34, vec![proof(proof_id), name(old_func), name(new_func)]),
        Kind::MergeFnEmptyArgs { proof_id, which } => {
            (35, vec![proof(proof_id), old_or_new(which)])
        }
        Kind::MergeFnInputMismatch { proof_id } => (36, vec![proof(proof_id)]),
        Kind::MergeFnNotApp {
            proof_id,
            old_term,
            new_term,
        } => (37, vec![proof(proof_id), term(*old_term), term(*new_term)]),
        Kind::MergeFnResultMismatch {
            proof_id,
            claimed_lhs,
            claimed_rhs,
        } => {
            let pair = [printed(claimed_lhs), printed(claimed_rhs)];
            (38, vec![proof(proof_id), pair[0], pair[1]])
        }
        Kind::MergeFnNotReflexive {
            proof_id,
            which,
            lhs,
            rhs,
        } => {
            let fields = [proof(proof_id), old_or_new(which), term(*lhs), term(*rhs)];
            (39, fields.to_vec())
        }
        Kind::FunctionNotFound { function_name } => (43, vec![name(function_name)]),
        _ => return None,
    })
}

/// What the rules' author has to answer for.
fn author_fields(kind: &ProofCheckErrorKind) -> Fields {
    use ProofCheckErrorKind as Kind;
    Some(match kind {
        Kind::DuplicateRuleName { rule_name } => (44, vec![name(rule_name)]),
        Kind::UnboundVariable {
            rule_name,
            variable,
            ..
        } => (45, vec![name(rule_name), name(variable)]),
        Kind::PrimitiveValidatorFailed { function_name } => (46, vec![name(function_name)]),
        Kind::PrimitiveNoValidator { function_name } => (47, vec![name(function_name)]),
        Kind::SideConditionUnbound { rule_name, fact } => {
            (48, vec![name(rule_name), printed(fact)])
        }
        Kind::PrimitiveNonNormalArg { rule_name, arg } => (49, vec![name(rule_name), printed(arg)]),
        Kind::ContainerPrimitiveNotSideCondition { rule_name, prim } => {
            (50, vec![name(rule_name), printed(prim)])
        }
        _ => return None,
    })
}
