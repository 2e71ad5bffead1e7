//! The command `man`.

use crate::arguments::Arguments;
use crate::command::Command;
use crate::failure::Failure;
use crate::{files, pages};

pub const MAN: Command = Command {
    name: "man",
    about: "the man page",
    text: "Prints the man page, made of what the pages of help are made of, for 'man -l' or a folder man1.",
    operands: &[],
    options: &[],
    status: "0 printed.",
    example: "\
$ jestrunas man | head -n 1
.TH JESTRUNAS 1
",
    run: man,
};

fn man(_: &Arguments) -> Result<u8, Failure> {
    files::answer(&pages::man())
}
