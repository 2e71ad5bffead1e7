//! A verdict in words and as JSON.

use crate::json::Object;
use crate::why::Why;
use jestrunas::{numbers, Verdict};
use std::ffi::OsStr;

fn trials(verdict: &Verdict) -> usize {
    match verdict {
        Ok(accepted) => accepted.trials,
        Err(refusal) => refusal.trials,
    }
}

/// A number of things, in the singular where it is 1.
pub fn counted(n: usize, what: &str) -> String {
    format!("{n} {what}{}", if n == 1 { "" } else { "s" })
}

/// What the verdict says, without its numbers.
fn meaning(verdict: &Verdict) -> String {
    match verdict {
        Ok(accepted) => format!("accepted, {}", counted(accepted.stages, "stage")),
        Err(refusal) => refusal.meaning().to_string(),
    }
}

/// Reason, place and component, the trials, and the verdict in words.
pub fn words(verdict: &Verdict) -> String {
    let [reason, place, component] = numbers(verdict);
    format!("{reason} {place} {component}, {}: {}", counted(trials(verdict), "trial"), meaning(verdict))
}

/// The same as fields, of the file with this name, and what is wrong where that is told.
pub fn json(name: &OsStr, verdict: &Verdict, why: Option<&Why>) -> Object {
    let [reason, place, component] = numbers(verdict);
    let numbers = Object::new().with_file(name).with("reason", reason).with("place", place).with("component", component);
    let told = numbers.with("trials", trials(verdict)).with("words", meaning(verdict));
    match why {
        Some(why) => told.with("why", why.json()),
        None => told,
    }
}
