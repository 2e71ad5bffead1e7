//! The command `verilog`.

use super::read;
use crate::arguments::Arguments;
use crate::command::{Command, Switch, Words, DESIGN, JSON};
use crate::failure::{Failure, Told, DONE};
use crate::json::{Json, Object};
use crate::verilog::{files as made, is_name, Files};
use crate::why::Why;
use crate::{files, verdict};
use jestrunas::Verdict;
use std::ffi::OsStr;
use std::fs;
use std::path::Path;

pub const VERILOG: Command = Command {
    name: "verilog",
    about: "a design as Verilog, with a testbench",
    text: "\
Writes a design as Verilog: NAME.v with a module for each component, whose ports are the shares that it reads and no other, and a top module \
with a register behind each stage; and NAME_test.v, a testbench that compares 200 sharings with the library's answers. With --yosys also \
NAME.ys, a script that synthesises without flattening and tells the cells of each component. docs/HARDWARE.md says more.",
    operands: &[DESIGN],
    options: &[
        Switch::valued(&["--name"], "NAME", "the name of the modules; else by that of the file"),
        Switch::flag(&["--yosys"], "writes the script for Yosys too"),
        Switch::flag(&["--force"], "writes a design too that the library refuses"),
        Switch::valued(&["-o", "--output"], "DIR", "the folder of the files, which is made if it is not there").due().offers(Words::Files),
        JSON,
    ],
    status: "0 written; 1 the file does not read, or is refused.",
    example: "\
$ jestrunas verilog designs/present.bin -o target/verilog && ls target/verilog
present.v
present_test.v
",
    run: verilog,
};

/// The name that a file's name gives: its stem, with `_` for each character that no name has.
fn name_of(file: &OsStr) -> String {
    let stem = Path::new(file).file_stem().unwrap_or_default().to_string_lossy();
    let name: String = stem.chars().map(|c| if c.is_ascii_alphanumeric() { c } else { '_' }).collect();
    match is_name(&name) && !files::is_standard(file) {
        true => name,
        false => format!("design{}", name.trim_start_matches('_')),
    }
}

fn name(arguments: &Arguments, file: &OsStr) -> Result<String, Failure> {
    let Some(word) = arguments.value("--name") else { return Ok(name_of(file)) };
    let name = word.to_str().filter(|name| is_name(name)).map(str::to_owned);
    name.ok_or_else(|| {
        let words = format!("--name has letters, digits and _, and no digit first: '{}' is none", files::shown(word));
        Failure::Misused(words)
    })
}

/// A design that the verdict refuses.
fn refused(file: &OsStr, verdict: &Verdict, why: Option<&Why>) -> Failure {
    let cause = why.map_or(String::new(), |why| format!(": {}", why.line()));
    let words = format!("{}: {}{cause}; with --force it is written all the same", files::shown(file), verdict::words(verdict));
    Failure::Refused(Told { words, json: verdict::json(file, verdict, why) })
}

fn verilog(arguments: &Arguments) -> Result<u8, Failure> {
    let (file, folder) = (arguments.operand(0), Path::new(arguments.due("-o")));
    let name = name(arguments, file)?;
    let input = read(file)?;
    let design = input.design(file)?;
    let (verdict, why) = input.judged();
    if verdict.is_err() && !arguments.has("--force") {
        return Err(refused(file, &verdict, why.as_ref()));
    }
    if !folder.is_dir() {
        fs::create_dir_all(folder).map_err(|error| Failure::unavailable(folder.as_os_str(), error))?;
    }
    let Files { modules, testbench, yosys } = made(&name, &input.file, &design, &verdict::words(&verdict));
    let mut texts = vec![(format!("{name}.v"), modules), (format!("{name}_test.v"), testbench)];
    if arguments.has("--yosys") {
        texts.push((format!("{name}.ys"), yosys));
    }
    for (name, text) in &texts {
        files::output(folder.join(name).as_os_str(), text.as_bytes(), &[file])?;
    }
    if arguments.has("--json") {
        let names: Vec<Json> = texts.into_iter().map(|(name, _)| name.into()).collect();
        files::answer_json(&Object::new().with_file(folder.as_os_str()).with("name", name).with("files", names))?;
    }
    Ok(DONE)
}
