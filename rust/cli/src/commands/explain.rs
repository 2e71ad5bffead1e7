//! The command `explain`.

use super::read;
use crate::arguments::Arguments;
use crate::command::{Command, Switch, DESIGN, JSON, OUTPUT};
use crate::failure::{Failure, DONE};
use crate::{files, html, text, verdict};

pub const EXPLAIN: Command = Command {
    name: "explain",
    about: "a design as text, its shares, its verdict",
    text: "\
Prints a design as text (docs/TEXT.md), as 'assemble' reads it; then, as comments, for each stage a row a component with an x for each \
share on which it depends, the verdict, and what of the design is the cause where it is refused. With --html it writes all of that, and \
more, as a page for the browser.",
    operands: &[DESIGN],
    options: &[
        Switch::flag(&["--html"], "writes a page of HTML"),
        Switch { due: false, about: "the file that is written; else standard output", ..OUTPUT },
        JSON,
    ],
    status: "0 printed, whatever the verdict; 1 the file does not read.",
    example: "\
$ jestrunas explain designs/d.bin
m 1
s 3
S 0 1

stage
G 0 1
y1[0] = x2[0]
y2[0] = x3[0]
y3[0] = x1[0]

# stage 1: each component, and the shares on which it depends
#     x1 x2 x3
#  y1  .  x  .
#  y2  .  .  x
#  y3  x  .  .

# verdict: 0 1 0, 16 trials: accepted, 1 stage
",
    run: explain,
};

fn explain(arguments: &Arguments) -> Result<u8, Failure> {
    let name = arguments.operand(0);
    let input = read(name)?;
    let design = input.design(name)?;
    let (verdict, why) = input.judged();
    if arguments.has("--json") {
        return match ["--html", "-o"].iter().find(|name| arguments.has(name)) {
            Some(name) => Err(Failure::Misused(format!("--json and {name} do not go together"))),
            None => files::answer_json(&verdict::json(name, &verdict, why.as_ref()).and(design.json())),
        };
    }
    let page = match arguments.has("--html") {
        true => html::page(name, &design, &verdict, why.as_ref()),
        false => text::explained(&design, &verdict::words(&verdict), &why.map_or(Vec::new(), |why| why.lines())),
    };
    match arguments.value("-o") {
        Some(output) => files::output(output, page.as_bytes(), &[name]).map(|()| DONE),
        None => files::answer(&page),
    }
}
