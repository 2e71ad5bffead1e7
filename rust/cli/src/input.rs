//! A design that a command is given: a design file, or a text, known by its first bytes.

use crate::design::Design;
use crate::failure::{tell, Failure, Told};
use crate::files::{self, shown};
use crate::json::Object;
use crate::text::{self, Fault, Place, Text};
use crate::why::Why;
use jestrunas::{Refusal, Verdict};
use std::ffi::OsStr;

/// The file of a design, and what is known of it where it was given as a text.
pub struct Input {
    pub file: Vec<u8>,
    /// Of each stage whether its G was left out, and guessed.
    pub guessed: Vec<bool>,
    /// What a text leaves out, a line each.
    pub warnings: Vec<String>,
}

impl Input {
    /// What is read under this name.
    pub fn of(name: &OsStr) -> Result<Input, Failure> {
        let bytes = files::input(name).map_err(|error| Failure::unavailable(name, error))?;
        if files::is_text(&bytes) {
            Input::of_text(name, &bytes)
        } else {
            Ok(Input { file: bytes, guessed: Vec::new(), warnings: Vec::new() })
        }
    }

    /// The design of a text that was read under this name.
    pub fn of_text(name: &OsStr, bytes: &[u8]) -> Result<Input, Failure> {
        if bytes.len() as u64 > files::TEXT {
            return Err(Failure::refused(name, format!("the text is longer than {} bytes", files::TEXT)));
        }
        let Text { design, guessed, left_out } = text::read(bytes).map_err(|fault| refused(name, &fault))?;
        let warnings = left_out.iter().map(|fault| format!("{}:{fault}", shown(name))).collect();
        Ok(Input { file: design.file(), guessed, warnings })
    }

    /// Tells on standard error what a text leaves out.
    pub fn warn(&self) {
        for line in &self.warnings {
            tell(&format!("jestrunas: {line}\n"));
        }
    }

    /// The design, or why its file does not read.
    pub fn design(&self, name: &OsStr) -> Result<Design, Failure> {
        Design::read(&self.file).map_err(|refusal| Failure::unread_design(name, &refusal, Why::of_unread(&self.file, &refusal)))
    }

    /// What is wrong with a design that was refused.
    pub fn why(&self, refusal: &Refusal) -> Option<Why> {
        match Design::read(&self.file) {
            Ok(design) => Why::of(&design, &self.guessed, refusal),
            Err(_) => Why::of_unread(&self.file, refusal),
        }
    }

    /// The verdict, and what is wrong where it refuses.
    pub fn judged(&self) -> (Verdict, Option<Why>) {
        let verdict = jestrunas::judge(&self.file);
        let why = verdict.as_ref().err().and_then(|refusal| self.why(refusal));
        (verdict, why)
    }
}

/// A text with a fault.
fn refused(name: &OsStr, fault: &Fault) -> Failure {
    let Place { line, column } = fault.place;
    let json = Object::new().with_file(name).with("line", line).with("column", column).with("words", fault.words.as_str());
    Failure::Refused(Told { words: format!("{}:{fault}", shown(name)), json })
}
