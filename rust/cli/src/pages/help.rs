//! What `--help` prints.

use super::{named, usage, EXAMPLE, STATUS, STREAMS, TITLE};
use crate::command::{Command, COMMON};
use crate::commands::COMMANDS;

/// No line of text is longer.
const WIDTH: usize = 80;

/// Words in lines behind a start, which the first line has, and below it.
fn filled(start: &str, indent: usize, words: &str) -> String {
    let mut text = start.to_owned();
    let mut column = start.chars().count();
    let mut empty = true;
    for word in words.split_whitespace() {
        let width = word.chars().count();
        if !empty && column + 1 + width > WIDTH {
            text += &format!("\n{:indent$}", "");
            (column, empty) = (indent, true);
        }
        if !empty {
            text.push(' ');
            column += 1;
        }
        text += word;
        (column, empty) = (column + width, false);
    }
    text + "\n"
}

fn paragraphs(text: &str) -> String {
    text.split("\n\n").map(|paragraph| filled("", 0, paragraph) + "\n").collect()
}

fn example(lines: &str) -> String {
    let lines: String = lines.lines().map(|line| if line.is_empty() { "\n".to_owned() } else { format!("  {line}\n") }).collect();
    format!("Example:\n\n{lines}")
}

/// The list of all commands.
pub fn all() -> String {
    let column = COMMANDS.iter().map(|command| usage(command, false).len()).max().unwrap_or_default();
    let lines: String =
        COMMANDS.iter().map(|command| format!("  {:column$}   {}\n", usage(command, false), command.about)).collect();
    let status = filled("Exit status: ", 0, STATUS);
    format!("jestrunas: {TITLE}\n\n{lines}\n{}{status}\n{}", paragraphs(STREAMS), example(EXAMPLE))
}

/// The page of a command.
pub fn page(command: &Command) -> String {
    let options: Vec<_> = command.options.iter().chain(&COMMON).map(|switch| (named(switch), switch.about)).collect();
    let column = options.iter().map(|(names, _)| names.len()).max().unwrap_or_default();
    let lines: String =
        options.iter().map(|(names, about)| filled(&format!("  {names:column$}   "), column + 5, about)).collect();
    let status = filled("Exit status: ", 0, command.status);
    let head = format!("{}\n{}", filled("", 10, &usage(command, true)), paragraphs(command.text));
    format!("{head}{lines}\n{status}\n{}", example(command.example))
}

/// What is told of wrong use: what is wrong, and where help is.
pub fn misused(command: Option<&Command>, words: &str) -> String {
    let name = command.map_or("jestrunas".to_owned(), |command| format!("jestrunas {}", command.name));
    format!("{name}: {words}; see '{name} --help'\n")
}
