//! The man page.

use super::{named, usage, EXAMPLE, STATUS, STREAMS, TITLE};
use crate::command::{Command, COMMON};
use crate::commands::COMMANDS;

/// A text in which nothing is a request: its dashes are those that a person types.
fn plain(text: &str) -> String {
    let escaped = text.replace('\\', "\\e").replace('-', "\\-");
    let line = |line: &str| if line.starts_with(['.', '\'']) { format!("\\&{line}\n") } else { format!("{line}\n") };
    escaped.lines().map(line).collect()
}

fn paragraphs(text: &str) -> String {
    text.split("\n\n").map(|paragraph| format!(".PP\n{}", plain(paragraph))).collect()
}

fn example(lines: &str) -> String {
    format!(".PP\n.nf\n.RS\n{}.RE\n.fi\n", plain(lines))
}

fn command(command: &Command) -> String {
    let options: String =
        command.options.iter().map(|switch| format!(".TP\n{}{}", plain(&named(switch)), plain(switch.about))).collect();
    let status = plain(&format!("Exit status: {}", command.status));
    let text = paragraphs(command.text);
    format!(".SS {}{text}{options}.PP\n{status}{}", plain(&usage(command, true)), example(command.example))
}

pub fn man() -> String {
    let commands: String = COMMANDS.iter().map(command).collect();
    let common: String = COMMON.iter().map(|switch| format!(".TP\n{}{}", plain(&named(switch)), plain(switch.about))).collect();
    format!(
        ".TH JESTRUNAS 1\n.SH NAME\njestrunas \\- {TITLE}\n.SH SYNOPSIS\njestrunas COMMAND [OPTION..] [OPERAND..]\n.SH DESCRIPTION\n{}\
         .SH COMMANDS\n{commands}.SH OPTIONS OF EVERY COMMAND\n{common}.SH EXIT STATUS\n{}.SH EXAMPLE\n{}",
        plain(STREAMS),
        plain(STATUS),
        example(EXAMPLE)
    )
}
