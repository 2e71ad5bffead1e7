//! What occurred how often.

use std::collections::BTreeMap;

/// The reasons of a file that does not read.
pub const READING: [usize; 7] = [1, 2, 3, 4, 5, 6, 7];

/// How often each reason was answered.
#[derive(Default)]
pub struct Counts {
    by_reason: BTreeMap<usize, usize>,
}

impl Counts {
    pub fn add(&mut self, reason: usize) {
        *self.by_reason.entry(reason).or_default() += 1;
    }

    /// Answers whether each reason that is due was answered, and no other.
    pub fn say(&self, what: &str, due: &[&[usize]]) -> bool {
        let counts: Vec<String> = self.by_reason.iter().map(|(reason, times)| format!("{reason}:{times}")).collect();
        println!("{what}: {} calls, by reason {}", self.by_reason.values().sum::<usize>(), counts.join(" "));
        let mut due = due.concat();
        due.sort();
        let complete = self.by_reason.keys().eq(&due);
        if !complete {
            println!("{what}: {due:?} are due");
        }
        complete
    }
}

/// Answers whether what must occur did, and tells where it did not.
pub fn occurred(did: bool, words: &str) -> bool {
    if !did {
        println!("{words}");
    }
    did
}
