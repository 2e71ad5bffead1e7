//! How far a long list is, on a terminal: a line of standard error that the next one takes the place of.

use crate::failure::tell;
use std::io::{self, IsTerminal};
use std::time::Instant;

/// How many files make a list long.
const LONG: usize = 20;

pub struct Progress {
    shown: bool,
    count: usize,
    began: Instant,
}

impl Progress {
    pub fn of(count: usize) -> Progress {
        Progress { shown: count >= LONG && io::stderr().is_terminal(), count, began: Instant::now() }
    }

    /// So many are done: the others take as long as these did.
    pub fn show(&self, done: usize) {
        if self.shown && done < self.count {
            let left = self.began.elapsed().as_secs_f64() / done as f64 * (self.count - done) as f64;
            tell(&format!("\r\x1b[K{done} of {}, {} left", self.count, time(left)));
        }
    }

    pub fn clear(&self) {
        if self.shown {
            tell("\r\x1b[K");
        }
    }
}

/// A time for a person, in whole seconds, rounded up.
fn time(seconds: f64) -> String {
    let seconds = seconds.ceil() as u64;
    match (seconds / 3600, seconds / 60 % 60, seconds % 60) {
        (0, 0, s) => format!("{s} s"),
        (0, m, s) => format!("{m} min {s} s"),
        (h, m, _) => format!("{h} h {m} min"),
    }
}

#[cfg(test)]
mod tests {
    use super::time;

    #[test]
    fn times() {
        for (seconds, due) in [(0.2, "1 s"), (59.0, "59 s"), (59.1, "1 min 0 s"), (3599.9, "1 h 0 min"), (7322.0, "2 h 2 min")] {
            assert_eq!(time(seconds), due);
        }
    }
}
