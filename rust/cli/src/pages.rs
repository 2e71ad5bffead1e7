//! What is made of the entries of the commands: pages of help, completions, a man page.

mod completions;
mod help;
mod man;

pub use completions::{bash, fish, zsh};
pub use help::{all, misused, page};
pub use man::man;

use crate::command::{Command, Count, Operand, Switch, OUTPUT};

pub const VERSION: &str = concat!("jestrunas ", env!("CARGO_PKG_VERSION"), "\n");

const TITLE: &str = "threshold-implementation sharings of S-boxes";

const STREAMS: &str = "\
A design is a file or a text (docs/TEXT.md), and '-' is standard input or output. A file is written as a whole or not at all, and never over an input. 'jestrunas help COMMAND' says more.";

const STATUS: &str = "\
0 done, and for 'judge' all accepted; 1 an input is refused; 2 wrong use, or a file that cannot be read or written.";

const EXAMPLE: &str = "\
$ jestrunas judge designs/d.bin
designs/d.bin: 0 1 0, 16 trials: accepted, 1 stage
";

/// An option in a line of use, by its short name where it has one.
fn used(switch: &Switch) -> String {
    let name = switch.names.iter().min_by_key(|name| name.len()).expect("an option has a name");
    let used = switch.value.map_or_else(|| (*name).to_owned(), |value| format!("{name} {value}"));
    if switch.due {
        used
    } else {
        format!("[{used}]")
    }
}

fn operand(operand: &Operand) -> String {
    match operand.count {
        Count::Optional => format!("[{}]", operand.name),
        Count::One => operand.name.to_owned(),
        Count::Some => format!("{}..", operand.name),
    }
}

/// `jestrunas NAME` and what goes with it: the due options, or all of them, and the operands; the output stands last.
fn usage(command: &Command, all: bool) -> String {
    let options = |last: bool| {
        command.options.iter().filter(move |switch| (all || switch.due) && (switch.names == OUTPUT.names) == last).map(used)
    };
    let start = ["jestrunas", command.name].map(str::to_owned).into_iter();
    start.chain(options(false)).chain(command.operands.iter().map(operand)).chain(options(true)).collect::<Vec<_>>().join(" ")
}

/// An option with all its names and its value: `-o, --output FILE`.
fn named(switch: &Switch) -> String {
    let mut names = switch.names.to_vec();
    names.sort_by_key(|name| name.len());
    let value = switch.value.map_or(String::new(), |value| format!(" {value}"));
    names.join(", ") + &value
}
