//! Judges, explains, assembles, produces, runs, forecasts, joins and transforms: `jestrunas --help` says how.

use std::process::ExitCode;

fn main() -> ExitCode {
    let words: Vec<_> = std::env::args_os().skip(1).collect();
    cli::run(&words)
}
