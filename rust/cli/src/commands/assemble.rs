//! The command `assemble`.

use super::write;
use crate::arguments::Arguments;
use crate::command::{Command, Operand, Words, JSON, OUTPUT};
use crate::failure::Failure;
use crate::files;
use crate::input::Input;
use crate::json::Object;

pub const ASSEMBLE: Command = Command {
    name: "assemble",
    about: "the design file of a text",
    text: "\
Writes the design file of a text (docs/TEXT.md). Where the text is no design it tells the line and the column, and what was due there.",
    operands: &[Operand::one("TEXT", "a text").offers(Words::Files)],
    options: &[OUTPUT, JSON],
    status: "0 written; 1 the text is no design.",
    example: "$ jestrunas explain designs/d.bin | jestrunas assemble - -o - | cmp - designs/d.bin\n",
    run: assemble,
};

fn assemble(arguments: &Arguments) -> Result<u8, Failure> {
    let name = arguments.operand(0);
    let bytes = files::input(name).map_err(|error| Failure::unavailable(name, error))?;
    if files::is_design(&bytes) {
        return Err(Failure::refused(name, "it is a design file already"));
    }
    let input = Input::of_text(name, &bytes)?;
    input.warn();
    write(arguments, &input.file, &[name], Object::new())
}
