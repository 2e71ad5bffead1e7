//! The command `transform`.

use crate::arguments::{number, Arguments};
use crate::command::{Command, Operand, Switch, JSON};
use crate::failure::Failure;
use crate::json::{list, Json, Object};
use crate::tables::{packed, Table};
use crate::why::{Degrees, Why};
use crate::{files, text};
use jestrunas::SHARES_MIN;

pub const TRANSFORM: Command = Command {
    name: "transform",
    about: "a table to coefficient words, or back",
    text: "\
Prints the coefficient words of a table of M bits; of coefficient words, the table. They are packed, an entry one hexadecimal digit, or two \
where M is above 4; or decimal numbers with spaces between them, as one word of the shell. Where M is left out it is that of a table of \
this length.",
    operands: &[Operand::optional("M", "m"), Operand::one("WORDS", "a table or coefficient words")],
    options: &[Switch::flag(&["--formulas"], "prints a formula for each bit of the table, as lines for the G of a text, with its degree"), JSON],
    status: "0 printed; 1 refused, with the reason.",
    example: "\
$ jestrunas transform 01234576
01204010
$ jestrunas transform --formulas 01234576
G[0] = x[0] + x[1]·x[2]  # degree 2
G[1] = x[1]  # degree 1
G[2] = x[2]  # degree 1
",
    run: transform,
};

fn transform(arguments: &Arguments) -> Result<u8, Failure> {
    let (m, word) = match &arguments.operands[..] {
        [m, word] => (Some(number("m", m)?), word),
        operands => (None, &operands[0]),
    };
    let table = Table::of("a table", word, m)?;
    let m = table.m;
    let mut output = vec![0; table.entries.len()];
    jestrunas::transform(m, &table.entries, &mut output)
        .map_err(|reason| Failure::reason(reason, Why::of_given(SHARES_MIN, &table, &[], reason)))?;
    let formulas = arguments.has("--formulas");
    if arguments.has("--json") {
        let answer = Object::new().with("m", m).with("words", list(&output));
        files::answer_json(&if formulas { answer.with("formulas", json(m, &output)) } else { answer })
    } else if formulas {
        files::answer(&text::polynomials(m, &output))
    } else {
        files::answer(&format!("{}\n", packed(m, &output)))
    }
}

/// The formula of each bit and its degree.
fn json(m: usize, words: &[u8]) -> Vec<Json> {
    let bit = |(bit, &(degree, _)): (usize, &(u32, Option<usize>))| -> Json {
        Object::new().with("formula", text::polynomial(words, bit)).with("degree", degree as usize).into()
    };
    Degrees::of(m, words).bits.iter().enumerate().map(bit).collect()
}
