//! Shim for `egglog_ast::generic_ast`: the literals, one to one with the job's.

#[derive(Clone, PartialEq, Eq, Hash, Debug)]
pub enum Literal {
    Unit,
    Bool(bool),
    Int(i64),
    String(String),
}
