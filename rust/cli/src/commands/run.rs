//! The command `run`.

use super::read_design;
use crate::arguments::{number, Arguments};
use crate::command::{Command, Operand, DESIGN, JSON};
use crate::design::Design;
use crate::failure::Failure;
use crate::files;
use crate::json::{list, Object};
use crate::why::{Given, Why};
use jestrunas::SHARES_MAX;

pub const RUN: Command = Command {
    name: "run",
    about: "a design run on a sharing",
    text:
        "\
Runs a design on a sharing, share 1 first, in decimal. Prints the output shares, their sum, and S of the sum of the shares given.",
    operands: &[DESIGN, Operand::some("SHARE", "a share")],
    options: &[JSON],
    status: "0 it ran; 1 the file does not read, or a share is out of range.",
    example: "\
$ jestrunas run designs/box3.bin 6 1 1
shares 1 1 7
sum 7
S(6) 7
",
    run,
};

fn run(arguments: &Arguments) -> Result<u8, Failure> {
    let (name, words) = (arguments.operand(0), &arguments.operands[1..]);
    let (file, Design { m, s, s_box, .. }) = read_design(name)?;
    if words.len() != s {
        return Err(Failure::Misused(format!("the design has {s} shares, and {} are given", words.len())));
    }
    let values = words.iter().map(|word| number("a share", word)).collect::<Result<Vec<usize>, Failure>>()?;
    let mut shares = [0; SHARES_MAX];
    for (share, value) in shares.iter_mut().zip(&values) {
        // a share above 255 is out of range in every design, as 255 is
        *share = (*value).min(255) as u8;
    }
    let output =
        jestrunas::run(&file, shares).map_err(|reason| Failure::reason(reason, Given::share(m, &values).map(Why::Given)))?;
    let sum = |shares: [u8; SHARES_MAX]| shares.iter().fold(0, |sum, share| sum ^ share);
    let x = sum(shares);
    let (sum, due) = (sum(output), s_box[usize::from(x)]);
    if arguments.has("--json") {
        let answer = Object::new().with_file(name).with("shares", list(&output[..s])).with("sum", sum);
        files::answer_json(&answer.with("secret", x).with("due", due))
    } else {
        let written: String = output[..s].iter().map(|share| format!(" {share}")).collect();
        files::answer(&format!("shares{written}\nsum {sum}\nS({x}) {due}\n"))
    }
}
