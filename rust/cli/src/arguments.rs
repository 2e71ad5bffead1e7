//! The words behind a command: options and operands, as its entry has them.

use crate::command::{Command, Count, Switch, COMMON};
use crate::failure::Failure;
use crate::files::shown;
use crate::near;
use std::ffi::{OsStr, OsString};
use std::os::unix::ffi::OsStrExt;

pub struct Arguments {
    pub operands: Vec<OsString>,
    options: Vec<(&'static str, Option<OsString>)>,
}

fn misused<T>(words: String) -> Result<T, Failure> {
    Err(Failure::Misused(words))
}

impl Arguments {
    /// Parts the words: behind `--` all are operands, and `-` is one. A value stands in the next word, or behind `=` of a long name, or
    /// right behind a short one.
    pub fn of(words: &[OsString], command: &Command) -> Result<Arguments, Failure> {
        let mut found = Arguments { operands: Vec::new(), options: Vec::new() };
        let mut words = words.iter();
        while let Some(word) = words.next() {
            let bytes = word.as_bytes();
            if word == "--" {
                found.operands.extend(words.by_ref().cloned());
            } else if word == "-" || !bytes.starts_with(b"-") {
                found.operands.push(word.clone());
            } else {
                let (name, value) = parted(bytes);
                let Some(switch) = switches(command).find(|switch| switch.names.iter().any(|known| known.as_bytes() == name))
                else {
                    return misused(unknown(word, switches(command)));
                };
                found.take(switch, value.map(OsStr::to_owned), &mut words)?;
            }
        }
        Ok(found)
    }

    fn take<'a>(
        &mut self,
        switch: &Switch,
        value: Option<OsString>,
        words: &mut impl Iterator<Item = &'a OsString>,
    ) -> Result<(), Failure> {
        let key = switch.names[0];
        let value = match (switch.value, value) {
            (None, None) => None,
            (None, Some(_)) => return misused(format!("{key} takes no value")),
            (Some(_), Some(value)) => Some(value),
            (Some(_), None) => match words.next() {
                Some(value) => Some(value.clone()),
                None => return misused(format!("{key} has no value")),
            },
        };
        if value.is_some() && self.has(key) {
            return misused(format!("{key} stands twice"));
        }
        self.options.push((key, value));
        Ok(())
    }

    /// Refuses what the command's entry does not have: an operand or a due option that is left out, an operand too many.
    pub fn check(&self, command: &Command) -> Result<(), Failure> {
        let due: Vec<_> = command.operands.iter().filter(|operand| operand.count != Count::Optional).collect();
        if let Some(operand) = due.get(self.operands.len()) {
            return misused(format!("{} is due", operand.what));
        }
        let many = command.operands.last().is_some_and(|operand| operand.count == Count::Some);
        if let Some(extra) = self.operands.get(command.operands.len()).filter(|_| !many) {
            return misused(format!("'{}' is one word too many", shown(extra)));
        }
        match command.options.iter().find(|switch| switch.due && !self.has(switch.names[0])) {
            Some(switch) => misused(format!("{} is due", switch.names[0])),
            None => Ok(()),
        }
    }

    /// Whether an option was given, by the first of its names.
    pub fn has(&self, name: &str) -> bool {
        self.options.iter().any(|(of, _)| *of == name)
    }

    /// The value of an option, by the first of its names.
    pub fn value(&self, name: &str) -> Option<&OsStr> {
        self.options.iter().find(|(of, _)| *of == name).and_then(|(_, value)| value.as_deref())
    }

    /// The value of an option that its command's entry calls due.
    pub fn due(&self, name: &str) -> &OsStr {
        self.value(name).expect("a due option is there")
    }

    /// Operand i, counted from 0, which its command's entry calls due.
    pub fn operand(&self, i: usize) -> &OsStr {
        &self.operands[i]
    }
}

fn switches(command: &Command) -> impl Iterator<Item = &Switch> {
    command.options.iter().chain(&COMMON)
}

/// The name of an option, and the value in the same word: `--seed=7`, `-m3`.
fn parted(word: &[u8]) -> (&[u8], Option<&OsStr>) {
    let end = if word.starts_with(b"--") { word.iter().position(|&byte| byte == b'=') } else { Some(2) };
    match end.filter(|&end| end < word.len()) {
        None => (word, None),
        Some(end) => {
            let value = &word[end..];
            (&word[..end], Some(OsStr::from_bytes(value.strip_prefix(b"=").unwrap_or(value))))
        }
    }
}

/// What is told of an option that is none of these.
pub fn unknown<'a>(word: &OsStr, switches: impl Iterator<Item = &'a Switch>) -> String {
    let text = shown(word);
    let name = text.split('=').next().unwrap_or_default();
    let names = switches.flat_map(|switch| switch.names).copied().filter(|name| name.starts_with("--"));
    format!("there is no option {name}{}", near::hint(name, names))
}

/// A number in decimal. One too large to be held breaks every limit, as the largest does.
pub fn number(name: &str, word: &OsStr) -> Result<usize, Failure> {
    match word.to_str() {
        Some(digits) if !digits.is_empty() && digits.bytes().all(|digit| digit.is_ascii_digit()) => {
            Ok(digits.parse().unwrap_or(usize::MAX))
        }
        _ => misused(format!("{name} is a number, and '{}' is none", shown(word))),
    }
}
