//! What a command is: parsing, help, completions and the man page are made of this and of nothing else.

use crate::arguments::Arguments;
use crate::failure::Failure;

/// A command of `jestrunas`. Its entry in `COMMANDS` and its function are all that there is of it.
pub struct Command {
    pub name: &'static str,
    /// Its line in the list of commands.
    pub about: &'static str,
    /// What it does, in paragraphs; a line break inside one is as good as a space.
    pub text: &'static str,
    pub operands: &'static [Operand],
    /// Without `--help` and `--version`, which every command has.
    pub options: &'static [Switch],
    pub status: &'static str,
    /// Lines for the shell, each behind `$ `, with what they print. They run in the repository's root.
    pub example: &'static str,
    /// Answers an exit status.
    pub run: fn(&Arguments) -> Result<u8, Failure>,
}

/// A word without a dash.
pub struct Operand {
    pub name: &'static str,
    /// What is due where it is left out.
    pub what: &'static str,
    pub count: Count,
    pub words: Words,
}

#[derive(Clone, Copy, PartialEq, Eq)]
pub enum Count {
    Optional,
    One,
    /// One or more; for the last operand alone.
    Some,
}

/// What a shell may offer in the place of an operand or a value.
#[derive(Clone, Copy, PartialEq, Eq)]
pub enum Words {
    Files,
    Commands,
    These(&'static [&'static str]),
    Any,
}

/// An option.
pub struct Switch {
    /// `-x`, `--long` or both, the one by which the command asks for it first.
    pub names: &'static [&'static str],
    /// The name of its value, where it has one.
    pub value: Option<&'static str>,
    pub words: Words,
    /// Whether the command cannot do without it.
    pub due: bool,
    pub about: &'static str,
}

impl Switch {
    pub const fn flag(names: &'static [&'static str], about: &'static str) -> Switch {
        Switch { names, value: None, words: Words::Any, due: false, about }
    }

    pub const fn valued(names: &'static [&'static str], value: &'static str, about: &'static str) -> Switch {
        Switch { names, value: Some(value), words: Words::Any, due: false, about }
    }

    pub const fn due(self) -> Switch {
        Switch { due: true, ..self }
    }

    pub const fn offers(self, words: Words) -> Switch {
        Switch { words, ..self }
    }
}

impl Operand {
    pub const fn one(name: &'static str, what: &'static str) -> Operand {
        Operand { name, what, count: Count::One, words: Words::Any }
    }

    pub const fn some(name: &'static str, what: &'static str) -> Operand {
        Operand { name, what, count: Count::Some, words: Words::Any }
    }

    pub const fn optional(name: &'static str, what: &'static str) -> Operand {
        Operand { name, what, count: Count::Optional, words: Words::Any }
    }

    pub const fn offers(self, words: Words) -> Operand {
        Operand { words, ..self }
    }
}

/// What every command has.
pub const COMMON: [Switch; 2] =
    [Switch::flag(&["--help", "-h"], "prints this page"), Switch::flag(&["--version", "-V"], "prints the version")];

pub const JSON: Switch = Switch::flag(&["--json"], "prints the answer as an object of JSON, a refusal too");

pub const OUTPUT: Switch =
    Switch::valued(&["-o", "--output"], "FILE", "the file that is written, as a whole or not at all").due().offers(Words::Files);

/// A design file, or a text.
pub const DESIGN: Operand = Operand::one("FILE", "a design file").offers(Words::Files);
