//! Shim for `egglog_numeric_id`: numbers as types, and a map from them.

use std::marker::PhantomData;
use std::ops::Index;

pub trait NumericId: Copy {
    fn from_usize(index: usize) -> Self;
    fn index(self) -> usize;
}

#[macro_export]
macro_rules! define_id {
    ($visibility:vis $name:ident, $number:ty, $doc:literal) => {
        #[doc = $doc]
        #[derive(Clone, Copy, PartialEq, Eq, PartialOrd, Ord, Hash, Debug)]
        $visibility struct $name($number);

        impl $crate::NumericId for $name {
            fn from_usize(index: usize) -> Self {
                $name(index as $number)
            }

            fn index(self) -> usize {
                self.0 as usize
            }
        }
    };
}

#[derive(Clone, Debug)]
pub struct DenseIdMap<Id, Value> {
    values: Vec<Value>,
    id: PhantomData<Id>,
}

impl<Id: NumericId, Value> DenseIdMap<Id, Value> {
    pub fn new() -> Self {
        DenseIdMap {
            values: Vec::new(),
            id: PhantomData,
        }
    }

    pub fn push(&mut self, value: Value) -> Id {
        self.values.push(value);
        Id::from_usize(self.values.len() - 1)
    }
}

impl<Id: NumericId, Value> Default for DenseIdMap<Id, Value> {
    fn default() -> Self {
        DenseIdMap::new()
    }
}

impl<Id: NumericId, Value> Index<Id> for DenseIdMap<Id, Value> {
    type Output = Value;

    fn index(&self, id: Id) -> &Value {
        &self.values[id.index()]
    }
}
