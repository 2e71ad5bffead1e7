//! The text of a design, as docs/TEXT.md has it.

mod formula;
mod reader;
mod signs;
mod stage;
mod write;

pub use reader::{assemble, read, Text};
pub use write::{explained, polynomial, polynomials, sum, written};

use std::fmt;

/// A place in a text: line and column, both counted from 1, a column for each character.
#[derive(Clone, Copy, Debug, PartialEq, Eq)]
pub struct Place {
    pub line: usize,
    pub column: usize,
}

/// Why a text is no design: where, and what was due there or is wrong.
#[derive(Clone, Debug, PartialEq, Eq)]
pub struct Fault {
    pub place: Place,
    pub words: String,
}

impl fmt::Display for Fault {
    fn fmt(&self, f: &mut fmt::Formatter<'_>) -> fmt::Result {
        let Fault { place: Place { line, column }, words } = self;
        write!(f, "{line}:{column}: {words}")
    }
}

impl std::error::Error for Fault {}
