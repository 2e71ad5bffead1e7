//! The operations, each in a module: how it is called, on what, and which answers must occur. A new one is a module and its name at
//! the end of this list.

use crate::comparison::{Asked, Comparison};

/// How an operation is compared.
#[derive(Clone, Copy)]
pub struct Operation {
    /// What it is asked about each file.
    pub ask: fn(&mut Comparison, &Asked),
    /// Calls at the edges of what it takes, for each side on which something can be lent.
    pub edges: fn(&mut Comparison),
    /// Every call of some kinds.
    pub every: fn(&mut Comparison),
    /// Some calls on what is generated for it alone.
    pub generated: fn(&mut Comparison),
    /// Says what was counted. Answers whether all that must occur did, and nothing else.
    pub say: fn(&Comparison) -> bool,
}

/// An operation of which nothing is asked.
const NOTHING: Operation = Operation { ask: |_, _| {}, edges: |_| {}, every: |_| {}, generated: |_| {}, say: |_| true };

macro_rules! operations {
    ($($operation:ident)*) => {
        /// What each operation counted.
        #[derive(Default)]
        pub struct Counted {
            $($operation: $operation::Counted,)*
        }

        pub const OPERATIONS: &[Operation] = &[$($operation::OPERATION),*];
    };
}

mod assurance;
mod forecast;
mod join;
mod judge;
pub mod produce;
mod read;
mod run;
mod transform;

operations! { read judge assurance run forecast produce join transform }
