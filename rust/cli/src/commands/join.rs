//! The command `join`.

use super::{read_design, write};
use crate::arguments::Arguments;
use crate::command::{Command, Operand, Words, JSON, OUTPUT};
use crate::failure::Failure;
use crate::files;
use crate::json::Object;
use crate::why::Why;

pub const JOIN: Command = Command {
    name: "join",
    about: "two designs made one",
    text: "Writes one design of two: the stages of the first, then those of the second.",
    operands: &[
        Operand::one("FIRST", "a first design file").offers(Words::Files),
        Operand::one("SECOND", "a second design file").offers(Words::Files),
    ],
    options: &[OUTPUT, JSON],
    status: "0 written; 1 refused, with the reason.",
    example: "$ jestrunas join designs/present_g.bin designs/present_f.bin -o - | cmp - designs/present.bin\n",
    run: join,
};

fn join(arguments: &Arguments) -> Result<u8, Failure> {
    files::each_once(&arguments.operands)?;
    let (first, second) = (arguments.operand(0), arguments.operand(1));
    let (one, first_design) = read_design(first)?;
    let (other, second_design) = read_design(second)?;
    let file = jestrunas::join(&one, &other)
        .map_err(|reason| Failure::reason(reason, Why::of_joining(&first_design, &second_design, reason)))?;
    write(arguments, &file, &[first, second], Object::new())
}
