//! Shim for egglog's `ast`: the generic syntax that the published text reads. A span carries
//! the number of the cell, and `Display` gives that number.

use std::fmt;

pub use crate::core::FunctionSubtype;
use crate::core::ResolvedCall;
use crate::generic_ast::Literal;

/// Where an expression or fact comes from.
#[derive(Clone, Copy, Debug)]
pub enum Span {
    /// The span that the text itself makes up.
    Panic,
    /// A cell of the job.
    Cell(u32),
    /// The root of a bare fact: the expression's number, then the fact's.
    BareFact(u32, u32),
}

#[derive(Clone, Debug)]
pub struct ResolvedVar {
    pub name: String,
}

#[derive(Clone, Debug)]
pub enum GenericExpr<Head, Leaf> {
    Lit(Span, Literal),
    Var(Span, Leaf),
    Call(Span, Head, Vec<GenericExpr<Head, Leaf>>),
}

impl<Head, Leaf> GenericExpr<Head, Leaf> {
    fn span(&self) -> Span {
        match self {
            GenericExpr::Lit(span, _)
            | GenericExpr::Var(span, _)
            | GenericExpr::Call(span, _, _) => *span,
        }
    }
}

impl<Head, Leaf> fmt::Display for GenericExpr<Head, Leaf> {
    fn fmt(&self, f: &mut fmt::Formatter<'_>) -> fmt::Result {
        match self.span() {
            Span::Cell(number) | Span::BareFact(number, _) => write!(f, "{number}"),
            Span::Panic => write!(f, "none"),
        }
    }
}

#[derive(Clone, Debug)]
pub enum GenericFact<Head, Leaf> {
    Eq(Span, GenericExpr<Head, Leaf>, GenericExpr<Head, Leaf>),
    Fact(GenericExpr<Head, Leaf>),
}

impl<Head, Leaf> fmt::Display for GenericFact<Head, Leaf> {
    fn fmt(&self, f: &mut fmt::Formatter<'_>) -> fmt::Result {
        let span = match self {
            GenericFact::Eq(span, _, _) => *span,
            GenericFact::Fact(expr) => expr.span(),
        };
        match span {
            Span::Cell(number) | Span::BareFact(_, number) => write!(f, "{number}"),
            Span::Panic => write!(f, "none"),
        }
    }
}

/// The third word of a change action: delete or subsume; without effect here.
#[derive(Clone, Copy, Debug)]
pub enum Change {
    Delete,
}

#[derive(Clone, Debug)]
pub enum GenericAction<Head, Leaf> {
    Let(Span, Leaf, GenericExpr<Head, Leaf>),
    Set(
        Span,
        Head,
        Vec<GenericExpr<Head, Leaf>>,
        GenericExpr<Head, Leaf>,
    ),
    Change(Span, Change, Head, Vec<GenericExpr<Head, Leaf>>),
    Union(Span, GenericExpr<Head, Leaf>, GenericExpr<Head, Leaf>),
    Panic(Span, String),
    Expr(Span, GenericExpr<Head, Leaf>),
}

#[derive(Clone, Debug)]
pub struct GenericActions<Head, Leaf>(pub Vec<GenericAction<Head, Leaf>>);

#[derive(Clone, Debug)]
pub struct GenericRule<Head, Leaf> {
    pub name: String,
    pub body: Vec<GenericFact<Head, Leaf>>,
    pub head: GenericActions<Head, Leaf>,
}

#[derive(Clone, Debug)]
pub struct GenericFunctionDecl<Head, Leaf> {
    pub name: String,
    pub merge: Option<GenericExpr<Head, Leaf>>,
}

#[derive(Clone, Debug)]
pub enum GenericNCommand<Head, Leaf> {
    Function(GenericFunctionDecl<Head, Leaf>),
    NormRule { rule: GenericRule<Head, Leaf> },
    CoreAction(GenericAction<Head, Leaf>),
}

pub type ResolvedExpr = GenericExpr<ResolvedCall, ResolvedVar>;
pub type ResolvedFact = GenericFact<ResolvedCall, ResolvedVar>;
pub type ResolvedAction = GenericAction<ResolvedCall, ResolvedVar>;
pub type ResolvedNCommand = GenericNCommand<ResolvedCall, ResolvedVar>;
