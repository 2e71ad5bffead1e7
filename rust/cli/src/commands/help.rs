//! The command `help`.

use super::named;
use crate::arguments::Arguments;
use crate::command::{Command, Operand, Words};
use crate::failure::Failure;
use crate::{files, pages};

pub const HELP: Command = Command {
    name: "help",
    about: "the page of a command",
    text: "Prints the page of a command, or the list of all commands.",
    operands: &[Operand::optional("COMMAND", "a command").offers(Words::Commands)],
    options: &[],
    status: "0 printed.",
    example: "$ jestrunas help judge | cmp - <(jestrunas judge --help)\n",
    run: help,
};

fn help(arguments: &Arguments) -> Result<u8, Failure> {
    match arguments.operands.first() {
        Some(name) => files::answer(&pages::page(named(name)?)),
        None => files::answer(&pages::all()),
    }
}
