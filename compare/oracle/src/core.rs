//! Shim for egglog's `core`: what a call resolves to.

use std::fmt;
use std::sync::Arc;

use crate::panics;
use crate::typechecking::PrimitiveValidator;

#[derive(Clone, Copy, PartialEq, Eq, Debug)]
pub enum FunctionSubtype {
    Constructor,
    Custom,
}

#[derive(Clone, Debug)]
pub struct FuncType {
    pub name: String,
    pub subtype: FunctionSubtype,
}

/// The output sort of a primitive: a container or not.
#[derive(Clone, Copy, Debug)]
pub struct Sort {
    pub container: bool,
}

impl Sort {
    pub fn is_eq_container_sort(&self) -> bool {
        self.container
    }
}

#[derive(Clone)]
pub struct SpecializedPrimitive {
    pub name: String,
    pub output: Sort,
    pub validator: Option<PrimitiveValidator>,
}

impl SpecializedPrimitive {
    pub fn name(&self) -> &str {
        &self.name
    }

    pub fn output(&self) -> &Sort {
        &self.output
    }

    /// Notes the name of a primitive without validator: the text may panic on it at once.
    pub fn validator(&self) -> Option<&PrimitiveValidator> {
        if self.validator.is_none() {
            panics::note_missing_validator(&self.name);
        }
        self.validator.as_ref()
    }
}

impl fmt::Debug for SpecializedPrimitive {
    fn fmt(&self, f: &mut fmt::Formatter<'_>) -> fmt::Result {
        write!(f, "{}", self.name)
    }
}

#[derive(Clone, Debug)]
pub enum ResolvedCall {
    Func(Arc<FuncType>),
    Primitive(Arc<SpecializedPrimitive>),
}

impl ResolvedCall {
    pub fn name(&self) -> &str {
        match self {
            ResolvedCall::Func(func) => &func.name,
            ResolvedCall::Primitive(prim) => prim.name(),
        }
    }

    pub fn is_custom_func(&self) -> bool {
        matches!(self, ResolvedCall::Func(func) if func.subtype == FunctionSubtype::Custom)
    }
}
