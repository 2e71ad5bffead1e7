//! How a command ends that does not do what it was asked.

use crate::files::{answer_json, shown};
use crate::json::Object;
use crate::why::Why;
use jestrunas::{Reason, Refusal};
use std::ffi::OsStr;
use std::fmt::Display;
use std::io::{self, Write};

/// A command that did what it was asked; for `judge`, all files were accepted.
pub const DONE: u8 = 0;
/// An input was refused.
pub const REFUSED: u8 = 1;
/// Wrong use, or a file that cannot be had.
pub const WRONG: u8 = 2;

#[derive(Debug)]
pub enum Failure {
    /// An input is refused: what is wrong with it.
    Refused(Told),
    /// The words behind `jestrunas` are none that it knows: what is wrong with them.
    Misused(String),
    /// A file cannot be read or written: which, and why.
    Unavailable(Told),
    /// Nobody reads the output any more.
    Unread,
}

/// What is told of a failure: in words, and as JSON.
#[derive(Debug)]
pub struct Told {
    pub words: String,
    pub json: Object,
}

impl Told {
    fn because(self, why: Option<Why>) -> Told {
        match why {
            Some(why) => Told { words: format!("{}: {}", self.words, why.line()), json: self.json.with("why", why.json()) },
            None => self,
        }
    }
}

impl Failure {
    /// A file that does not read, and what in it is wrong.
    pub fn unread_design(file: &OsStr, refusal: &Refusal, why: Option<Why>) -> Failure {
        let Refusal { reason, place, component, .. } = refusal;
        let numbers = Object::new().with_file(file).with("reason", reason.number()).with("place", *place);
        let json = numbers.with("component", *component).with("words", refusal.meaning().to_string());
        Failure::Refused(Told { words: format!("{}: {refusal}", shown(file)), json }.because(why))
    }

    /// A refusal by its number and its words, where no file is to blame, and what that was given is wrong.
    pub fn reason(reason: Reason, why: Option<Why>) -> Failure {
        let json = Object::new().with("reason", reason.number()).with("words", reason.to_string());
        Failure::Refused(Told { words: format!("{}: {reason}", reason.number()), json }.because(why))
    }

    /// The same, of a file.
    pub fn file_reason(file: &OsStr, reason: Reason, why: Option<Why>) -> Failure {
        let json = Object::new().with_file(file).with("reason", reason.number()).with("words", reason.to_string());
        Failure::Refused(Told { words: format!("{}: {}: {reason}", shown(file), reason.number()), json }.because(why))
    }

    /// A file that is refused for another cause than the library's.
    pub fn refused(file: &OsStr, why: impl Display) -> Failure {
        let json = Object::new().with_file(file).with("words", why.to_string());
        Failure::Refused(Told { words: format!("{}: {why}", shown(file)), json })
    }

    pub fn unavailable(file: &OsStr, why: impl Display) -> Failure {
        let json = Object::new().with_file(file).with("error", why.to_string());
        Failure::Unavailable(Told { words: format!("{}: {why}", shown(file)), json })
    }

    /// Tells an input that is refused or a file that cannot be had: on standard error, or as a line of JSON.
    pub fn tell(&self, json: bool) -> Result<(), Failure> {
        let (Failure::Refused(told) | Failure::Unavailable(told)) = self else { return Ok(()) };
        if json {
            answer_json(&told.json)?;
        } else {
            tell(&format!("jestrunas: {}\n", told.words));
        }
        Ok(())
    }

    pub fn status(&self) -> u8 {
        match self {
            Failure::Refused(_) => REFUSED,
            Failure::Misused(_) | Failure::Unavailable(_) | Failure::Unread => WRONG,
        }
    }
}

/// Tells a person, on standard error. Where nothing can be told the exit status still says how it ended.
pub fn tell(words: &str) {
    let _ = io::stderr().write_all(words.as_bytes());
}
