//! The commands, and which of them the words behind `jestrunas` ask for.

mod assemble;
mod completions;
mod explain;
mod forecast;
mod help;
mod join;
mod judge;
mod man;
mod produce;
mod run;
mod transform;
mod verilog;

use crate::arguments::{self, Arguments};
use crate::command::{Command, COMMON};
use crate::design::Design;
use crate::failure::{tell, Failure, DONE};
use crate::input::Input;
use crate::json::Object;
use crate::{files, near, pages};
use std::ffi::{OsStr, OsString};
use std::os::unix::ffi::OsStrExt;
use std::process::ExitCode;

/// Every command, as help lists them.
pub static COMMANDS: [Command; 12] = [
    judge::JUDGE,
    explain::EXPLAIN,
    assemble::ASSEMBLE,
    produce::PRODUCE,
    run::RUN,
    forecast::FORECAST,
    join::JOIN,
    transform::TRANSFORM,
    verilog::VERILOG,
    help::HELP,
    completions::COMPLETIONS,
    man::MAN,
];

/// What the words behind `jestrunas` ask for. What went wrong is told on standard error.
pub fn run(words: &[OsString]) -> ExitCode {
    let (command, json, done) = start(words);
    let failure = match done {
        Ok(status) => return ExitCode::from(status),
        Err(failure) => failure,
    };
    match &failure {
        Failure::Misused(words) => tell(&pages::misused(command, words)),
        // where JSON cannot be printed, the status still says it
        other => drop(other.tell(json)),
    }
    ExitCode::from(failure.status())
}

/// The command that the words name, whether it answers in JSON, and how it ended.
fn start(words: &[OsString]) -> (Option<&'static Command>, bool, Result<u8, Failure>) {
    let none = |done| (None, false, done);
    let Some((first, words)) = words.split_first() else {
        return none(Err(Failure::Misused("a command is due".to_owned())));
    };
    if first == "--help" || first == "-h" {
        return none(files::answer(&pages::all()));
    }
    if first == "--version" || first == "-V" {
        return none(files::answer(pages::VERSION));
    }
    if first.as_bytes().starts_with(b"-") {
        return none(Err(Failure::Misused(arguments::unknown(first, COMMON.iter()))));
    }
    let command = match named(first) {
        Ok(command) => command,
        Err(failure) => return none(Err(failure)),
    };
    match Arguments::of(words, command) {
        Ok(arguments) => (Some(command), arguments.has("--json"), obey(command, &arguments)),
        Err(failure) => (Some(command), false, Err(failure)),
    }
}

fn obey(command: &Command, arguments: &Arguments) -> Result<u8, Failure> {
    if arguments.has("--help") {
        return files::answer(&pages::page(command));
    }
    if arguments.has("--version") {
        return files::answer(pages::VERSION);
    }
    arguments.check(command)?;
    (command.run)(arguments)
}

/// The command of this name.
fn named(name: &OsStr) -> Result<&'static Command, Failure> {
    COMMANDS.iter().find(|command| name == command.name).ok_or_else(|| {
        let text = files::shown(name);
        let hint = near::hint(&text, COMMANDS.iter().map(|command| command.name));
        Failure::Misused(format!("there is no command {text}{hint}"))
    })
}

/// The file of a design or a text. What a text leaves out is told.
fn read(name: &OsStr) -> Result<Input, Failure> {
    let input = Input::of(name)?;
    input.warn();
    Ok(input)
}

/// The design of a file or a text, and its file.
fn read_design(name: &OsStr) -> Result<(Vec<u8>, Design), Failure> {
    let input = read(name)?;
    let design = input.design(name)?;
    Ok((input.file, design))
}

/// Writes the file that a command makes, over none of its inputs; as JSON it answers where, how long, and what else there is to say.
fn write(arguments: &Arguments, file: &[u8], inputs: &[&OsStr], more: Object) -> Result<u8, Failure> {
    let output = arguments.due("-o");
    let json = arguments.has("--json");
    if json && files::is_standard(output) {
        return Err(Failure::Misused("--json and '-o -' would both write to standard output".to_owned()));
    }
    files::output(output, file, inputs)?;
    if json {
        files::answer_json(&Object::new().with_file(output).with("bytes", file.len()).and(more))?;
    }
    Ok(DONE)
}
