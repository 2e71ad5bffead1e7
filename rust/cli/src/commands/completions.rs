//! The command `completions`.

use crate::arguments::Arguments;
use crate::command::{Command, Operand, Words};
use crate::failure::Failure;
use crate::{files, near, pages};

/// The shells that there are completions for.
const SHELLS: [&str; 3] = ["bash", "zsh", "fish"];

pub const COMPLETIONS: Command = Command {
    name: "completions",
    about: "what a shell needs to complete words",
    text: "\
Prints what a shell, bash, zsh or fish, needs to complete the words behind jestrunas. Bash takes it by 'source <(jestrunas completions \
bash)'; zsh as the file _jestrunas in a folder of fpath; fish as jestrunas.fish in ~/.config/fish/completions.",
    operands: &[Operand::one("SHELL", "a shell").offers(Words::These(&SHELLS))],
    options: &[],
    status: "0 printed.",
    example: "\
$ source <(jestrunas completions bash); complete -p jestrunas
complete -o filenames -F _jestrunas jestrunas
",
    run: completions,
};

fn completions(arguments: &Arguments) -> Result<u8, Failure> {
    let shell = files::shown(arguments.operand(0));
    let script = match shell.as_str() {
        "bash" => pages::bash(),
        "zsh" => pages::zsh(),
        "fish" => pages::fish(),
        _ => {
            let hint = near::hint(&shell, SHELLS.into_iter());
            return Err(Failure::Misused(format!("a shell is bash, zsh or fish, and '{shell}' is none{hint}")));
        }
    };
    files::answer(&script)
}
