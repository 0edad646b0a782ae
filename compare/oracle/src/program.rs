//! From a job that passed the load checks to the text's program and proof store.

use std::sync::Arc;

use job::{Cell, Job, Table, primitives};

use crate::NumericId;
use crate::ast::{
    Change, FunctionSubtype, GenericAction, GenericActions, GenericFunctionDecl, GenericNCommand,
    GenericRule, ResolvedAction, ResolvedExpr, ResolvedFact, ResolvedNCommand, ResolvedVar, Span,
};
use crate::check::TooManySteps;
use crate::core::ResolvedCall;
use crate::counts;
use crate::expressions::{Expressions, function};
use crate::names;
use crate::proofs::proof_format::{Justification, ProofId, ProofStore, Proposition};
use crate::store;
use crate::termdag::{TermDag, TermId};
use crate::typechecking::PrimitiveValidator;
use crate::util::{HashMap, Room};

/// For each primitive, a validator: one that computes, or one that looks the job's rows up.
pub fn validators(job: &Job) -> Vec<PrimitiveValidator> {
    let mut rows: Vec<HashMap<Vec<TermId>, TermId>> =
        vec![HashMap::default(); job.count(Table::Primitives)];
    for cell in job.cells(Table::Rows) {
        let arguments = cell.words[2..].iter().map(|&term| term as TermId).collect();
        rows[cell.words[0] as usize].insert(arguments, cell.words[1] as TermId);
    }
    job.cells(Table::Primitives)
        .zip(rows)
        .map(|(cell, rows)| match primitives::counts(cell.kind) {
            true => counts::validator(cell.kind),
            false => looks_up(rows),
        })
        .collect()
}

fn looks_up(rows: HashMap<Vec<TermId>, TermId>) -> PrimitiveValidator {
    Arc::new(move |_: &mut TermDag, arguments: &[TermId]| rows.get(arguments).copied())
}

/// The functions, rules and global actions.
pub fn commands(
    job: &Job,
    validators: &[PrimitiveValidator],
) -> Result<Vec<ResolvedNCommand>, TooManySteps> {
    let expressions = Expressions::new(job, validators);
    let mut commands = Vec::new();
    for cell in job.cells(Table::Functions) {
        let merge = match cell.kind {
            1 => Some(expressions.tree(cell.words[1])?),
            _ => None,
        };
        commands.push(GenericNCommand::Function(GenericFunctionDecl {
            name: names::text(cell.words[0]),
            merge,
        }));
    }
    for cell in job.cells(Table::Rules) {
        commands.push(GenericNCommand::NormRule {
            rule: rule(job, &expressions, cell)?,
        });
    }
    for number in 0..job.sizes.globals() {
        let action = action(job, &expressions, number)?;
        commands.push(GenericNCommand::CoreAction(action));
    }
    Ok(commands)
}

fn rule(
    job: &Job,
    expressions: &Expressions,
    cell: Cell,
) -> Result<GenericRule<ResolvedCall, ResolvedVar>, TooManySteps> {
    let (facts, actions) = cell.words[2..].split_at(cell.words[1] as usize);
    let body = facts
        .iter()
        .map(|&number| fact(job, expressions, number))
        .collect::<Result<_, _>>()?;
    let head = actions
        .iter()
        .map(|&number| action(job, expressions, number))
        .collect::<Result<_, _>>()?;
    Ok(GenericRule {
        name: names::text(cell.words[0]),
        body,
        head: GenericActions(head),
    })
}

fn fact(job: &Job, expressions: &Expressions, number: u32) -> Result<ResolvedFact, TooManySteps> {
    let cell = job.cell(Table::Facts, number as usize);
    match cell.kind {
        0 => Ok(ResolvedFact::Eq(
            Span::Cell(number),
            expressions.tree(cell.words[0])?,
            expressions.tree(cell.words[1])?,
        )),
        _ => {
            let span = Span::BareFact(cell.words[0], number);
            let expression = expressions.tree_with_span(cell.words[0], span)?;
            Ok(ResolvedFact::Fact(expression))
        }
    }
}

fn action(
    job: &Job,
    expressions: &Expressions,
    number: u32,
) -> Result<ResolvedAction, TooManySteps> {
    let cell = job.cell(Table::Actions, number as usize);
    let span = Span::Cell(number);
    Ok(match cell.kind {
        0 => {
            let name = names::text(cell.words[0]);
            let expression = expressions.tree(cell.words[1])?;
            GenericAction::Let(span, ResolvedVar { name }, expression)
        }
        1 => GenericAction::Union(
            span,
            expressions.tree(cell.words[0])?,
            expressions.tree(cell.words[1])?,
        ),
        2 => set(span, expressions.tree(cell.words[0])?),
        3 => GenericAction::Expr(span, expressions.tree(cell.words[0])?),
        4 => GenericAction::Panic(span, String::new()),
        _ => {
            let head = function(0, FunctionSubtype::Custom);
            GenericAction::Change(span, Change::Delete, head, Vec::new())
        }
    })
}

/// The call's last argument is the value that is set.
fn set(span: Span, call: ResolvedExpr) -> ResolvedAction {
    let ResolvedExpr::Call(_, head, mut arguments) = call else {
        unreachable!("the load checks bar a set of no call");
    };
    let value = arguments.pop().expect("an argument");
    GenericAction::Set(span, head, arguments, value)
}

/// The job's terms and proofs, in a store of the given room.
pub fn proof_store(job: &Job, validators: &[PrimitiveValidator], room: Room) -> ProofStore {
    let mut term_dag = TermDag::default();
    for (number, cell) in job.cells(Table::Terms).enumerate() {
        assert_eq!(store::add_term(&mut term_dag, cell), number);
    }
    term_dag.set_room(room);
    let normalizers = job
        .cells(Table::Normalisers)
        .map(|cell| {
            let head = names::text(cell.words[0]);
            (head, validators[cell.words[1] as usize].clone())
        })
        .collect();
    let mut proofs = ProofStore::from_parts(term_dag, normalizers);
    for cell in job.cells(Table::Proofs) {
        let claimed = Proposition::new(cell.words[0] as TermId, cell.words[1] as TermId);
        proofs.push(claimed, justification(cell.kind, &cell.words[2..]));
    }
    proofs
}

fn justification(kind: u32, words: &[u32]) -> Justification {
    let proof = |place: usize| proof_id(words[place]);
    match kind {
        0 => Justification::Fiat,
        1 => rule_justification(words),
        2 => Justification::MergeFn {
            function: names::text(words[0]),
            old_proof: proof(1),
            new_proof: proof(2),
        },
        3 => Justification::Trans(proof(0), proof(1)),
        4 => Justification::Sym(proof(0)),
        5 => Justification::Congr {
            proof: proof(0),
            child_index: words[1] as usize,
            child_proof: proof(2),
        },
        6 => Justification::ContainerNormalize { proof: proof(0) },
        _ => Justification::Eval,
    }
}

fn rule_justification(words: &[u32]) -> Justification {
    let (premises, pairs) = words[2..].split_at(words[1] as usize);
    Justification::Rule {
        name: names::text(words[0]),
        premise_proofs: premises.iter().map(|&premise| proof_id(premise)).collect(),
        substitution: pairs
            .chunks(2)
            .map(|pair| (names::text(pair[0]), pair[1] as TermId))
            .collect(),
    }
}

pub fn proof_id(number: u32) -> ProofId {
    ProofId::from_usize(number as usize)
}
