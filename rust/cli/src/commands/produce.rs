//! The command `produce`.

mod ways;

use super::write;
use crate::arguments::{number, Arguments};
use crate::command::{Command, Operand, Switch, JSON, OUTPUT};
use crate::failure::Failure;
use crate::tables::{placement, Table};
use crate::why::Why;
use jestrunas::published_placement;
use ways::Made;

pub const PRODUCE: Command = Command {
    name: "produce",
    about: "the direct sharing of a table",
    text: "\
Writes the direct sharing of a table of M bits in S shares. A table is packed, an entry one hexadecimal digit, or two where M is above 4; \
or its entries are decimal numbers with spaces between them, as one word of the shell.

With --search it tries placements, the published one first, then random ones by the seed, and writes the first design that the library \
accepts; its placement is printed. With --universal it writes the universal construction (docs/HARDWARE.md), which is uniform for every \
permutation of degree S - 2 or less, and which the library has accepted.",
    operands: &[Operand::one("TABLE", "a table")],
    options: &[
        Switch::valued(&["-m"], "M", "the width in bits, 1 to 6; where it is left out, that of a table of this length"),
        Switch::valued(&["-s"], "S", "the number of shares, 3 to 5").due(),
        Switch::valued(&["--placement"], "BYTES", "the component of each set of shares, a byte one digit; else the published placement"),
        Switch::valued(&["--search"], "N", "tries N placements at most"),
        Switch::valued(&["--seed"], "SEED", "the seed of the placements that are tried; else 0"),
        Switch::flag(&["--universal"], "writes the universal construction"),
        OUTPUT,
        JSON,
    ],
    status: "0 written; 1 refused, with the reason, or no placement that was tried is accepted.",
    example: "\
$ jestrunas produce -s 3 01234576 -o - | jestrunas judge -
-: 0 1 0, 1024 trials: accepted, 1 stage
",
    run: produce,
};

fn produce(arguments: &Arguments) -> Result<u8, Failure> {
    ways::check(arguments)?;
    let m = arguments.value("-m").map(|word| number("-m", word)).transpose()?;
    let s = number("-s", arguments.due("-s"))?;
    let table = Table::of("a table", arguments.operand(0), m)?;
    let made = if arguments.has("--universal") {
        ways::by_construction(s, &table)?
    } else if arguments.has("--search") {
        ways::by_search(arguments, s, &table)?
    } else {
        let placement = match arguments.value("--placement") {
            Some(word) => placement("a placement", word)?,
            None => published_placement(s).to_owned(),
        };
        let file = jestrunas::produce(table.m, s, &table.entries, &placement)
            .map_err(|reason| Failure::reason(reason, Why::of_given(s, &table, &placement, reason)))?;
        Made { file, ..Made::default() }
    };
    let status = write(arguments, &made.file, &[], made.json)?;
    if !arguments.has("--json") {
        ways::told(arguments, &made.words)?;
    }
    Ok(status)
}
