//! Computes what the program `bench_designs` must write: its input on standard input, its output on standard output (`reference::rows` has
//! both forms).

use reference::rows::{Outcome, Row, Tally};
use std::io::{self, BufRead, Write};

fn main() -> io::Result<()> {
    let mut out = io::stdout().lock();
    let mut tally = Tally::default();
    for (i, line) in io::stdin().lock().lines().enumerate() {
        let outcome = Outcome::of(&Row::of(&line?));
        writeln!(out, "{}{outcome}", i + 1)?;
        tally.count(&outcome);
    }
    writeln!(out, "{tally}")
}
