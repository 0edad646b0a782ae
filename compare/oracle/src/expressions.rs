//! The job's expressions as trees, as the text has them.

use std::cell::Cell;
use std::sync::Arc;

use job::{Job, Table, primitives};

use crate::ast::{FunctionSubtype, ResolvedExpr, ResolvedVar, Span};
use crate::check::TooManySteps;
use crate::core::{FuncType, ResolvedCall, Sort, SpecializedPrimitive};
use crate::names;
use crate::store;
use crate::typechecking::PrimitiveValidator;

/// Nodes that all trees of one job may have together.
const MOST_NODES: u64 = 200_000;

pub struct Expressions<'a> {
    job: &'a Job<'a>,
    /// What each call resolves to.
    heads: Vec<Option<ResolvedCall>>,
    /// The nodes of each tree.
    nodes: Vec<u64>,
    nodes_left: Cell<u64>,
}

impl<'a> Expressions<'a> {
    pub fn new(job: &'a Job<'a>, validators: &[PrimitiveValidator]) -> Expressions<'a> {
        let resolved = resolved_primitives(job, validators);
        let mut expressions = Expressions {
            job,
            heads: Vec::new(),
            nodes: Vec::new(),
            nodes_left: Cell::new(MOST_NODES),
        };
        for cell in job.cells(Table::Expressions) {
            let name = cell.words[0];
            let arguments = &cell.words[1..];
            let head = match cell.kind {
                2 => Some(function(name, FunctionSubtype::Constructor)),
                3 => Some(function(name, FunctionSubtype::Custom)),
                4 => Some(ResolvedCall::Primitive(resolved[name as usize].clone())),
                _ => None,
            };
            let inside = match head {
                Some(_) => expressions.nodes_of(arguments),
                None => 0,
            };
            expressions.nodes.push(inside.saturating_add(1));
            expressions.heads.push(head);
        }
        expressions
    }

    fn nodes_of(&self, arguments: &[u32]) -> u64 {
        arguments
            .iter()
            .map(|&argument| self.nodes[argument as usize])
            .fold(0, u64::saturating_add)
    }

    /// The tree of an expression.
    pub fn tree(&self, number: u32) -> Result<ResolvedExpr, TooManySteps> {
        self.tree_with_span(number, Span::Cell(number))
    }

    /// The tree of an expression, its root with the given span.
    pub fn tree_with_span(&self, number: u32, span: Span) -> Result<ResolvedExpr, TooManySteps> {
        let left = self.nodes_left.get();
        let nodes = self.nodes[number as usize];
        self.nodes_left
            .set(left.checked_sub(nodes).ok_or(TooManySteps)?);
        Ok(self.build(number, span))
    }

    fn build(&self, number: u32, span: Span) -> ResolvedExpr {
        let cell = self.job.cell(Table::Expressions, number as usize);
        match (cell.kind, &self.heads[number as usize]) {
            (0, _) => ResolvedExpr::Lit(span, store::literal(cell.words)),
            (1, _) => ResolvedExpr::Var(
                span,
                ResolvedVar {
                    name: names::text(cell.words[0]),
                },
            ),
            (_, head) => {
                let arguments = cell.words[1..]
                    .iter()
                    .map(|&argument| self.build(argument, Span::Cell(argument)))
                    .collect();
                ResolvedExpr::Call(span, head.clone().expect("a call"), arguments)
            }
        }
    }
}

pub fn function(name: u32, subtype: FunctionSubtype) -> ResolvedCall {
    ResolvedCall::Func(Arc::new(FuncType {
        name: names::text(name),
        subtype,
    }))
}

fn resolved_primitives(
    job: &Job,
    validators: &[PrimitiveValidator],
) -> Vec<Arc<SpecializedPrimitive>> {
    job.cells(Table::Primitives)
        .zip(validators)
        .map(|(cell, validator)| {
            Arc::new(SpecializedPrimitive {
                name: names::text(cell.words[0]),
                output: Sort {
                    container: primitives::gives_containers(cell.kind),
                },
                validator: primitives::has_validator(cell.kind).then(|| validator.clone()),
            })
        })
        .collect()
}
