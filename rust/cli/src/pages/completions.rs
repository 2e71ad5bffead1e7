//! What shells need to complete words.

use crate::command::{Command, Switch, Words, COMMON};
use crate::commands::COMMANDS;

fn switches(command: &Command) -> impl Iterator<Item = &Switch> {
    command.options.iter().chain(&COMMON)
}

fn command_names() -> String {
    COMMANDS.iter().map(|command| command.name).collect::<Vec<_>>().join(" ")
}

/// The words that a shell may offer, where they are not files.
fn offered(words: Words) -> String {
    match words {
        Words::Files | Words::Any => String::new(),
        Words::Commands => command_names(),
        Words::These(these) => these.join(" "),
    }
}

/// What the operands of a command may be: those of the first one that has any.
fn operand_words(command: &Command) -> Words {
    command.operands.iter().map(|operand| operand.words).find(|&words| words != Words::Any).unwrap_or(Words::Any)
}

pub fn bash() -> String {
    let case = |command: &Command| {
        let options: Vec<&str> = switches(command).flat_map(|switch| switch.names).copied().collect();
        let words = operand_words(command);
        let kind = if words == Words::Files { "files=yes".to_owned() } else { format!("words='{}'", offered(words)) };
        let values: String = switches(command)
            .filter(|switch| switch.value.is_some())
            .map(|switch| {
                let kind = if switch.words == Words::Files { "files=yes words=''" } else { "files='' words=''" };
                format!("        {}) options='' {kind} ;;\n", switch.names.join(" | "))
            })
            .collect();
        let values = if values.is_empty() { values } else { format!("      case $before in\n{values}      esac\n") };
        format!("    {})\n      options='{}' {kind}\n{values}      ;;\n", command.name, options.join(" "))
    };
    let cases: String = COMMANDS.iter().map(case).collect();
    format!(
        "\
_jestrunas() {{
  local word=${{COMP_WORDS[COMP_CWORD]}} before=${{COMP_WORDS[COMP_CWORD - 1]}} options='--help --version' words='' files=''
  case ${{COMP_WORDS[1]}} in
{cases}  esac
  [ $COMP_CWORD -gt 1 ] || words='{}' files=''
  case $word in
    -*) mapfile -t COMPREPLY < <(compgen -W \"$options\" -- \"$word\") ;;
    *) mapfile -t COMPREPLY < <(compgen -W \"$words\" -- \"$word\"; [ -z \"$files\" ] || compgen -f -- \"$word\") ;;
  esac
}}
complete -o filenames -F _jestrunas jestrunas
",
        command_names()
    )
}

/// A text in single quotes.
fn quoted(text: &str) -> String {
    format!("'{}'", text.replace('\'', "'\\''"))
}

/// The action of zsh for these words.
fn action(words: Words) -> String {
    match words {
        Words::Files => "_files".to_owned(),
        Words::Any => " ".to_owned(),
        _ => format!("({})", offered(words)),
    }
}

pub fn zsh() -> String {
    // of an option the text is in brackets, and a colon parts its value from the rest
    let plain = |text: &str| text.replace(['[', ']'], "").replace(':', "\\:");
    let option = |switch: &Switch| -> String {
        let value = switch.value.map_or(String::new(), |value| format!(":{value}:{}", action(switch.words)));
        let line = |name: &&str| format!(" \\\n        {}", quoted(&format!("{name}[{}]{value}", plain(switch.about))));
        switch.names.iter().map(line).collect()
    };
    let case = |command: &Command| {
        let options: String = switches(command).map(option).collect();
        let operands = match command.operands {
            [] => String::new(),
            _ => format!(" \\\n        {}", quoted(&format!("*:operand:{}", action(operand_words(command))))),
        };
        format!("    {})\n      _arguments{options}{operands}\n      ;;\n", command.name)
    };
    let list: String = COMMANDS
        .iter()
        .map(|command| format!("      {}\n", quoted(&format!("{}:{}", command.name, plain(command.about)))))
        .collect();
    let cases: String = COMMANDS.iter().map(case).collect();
    format!(
        "\
#compdef jestrunas
_jestrunas() {{
  if (( CURRENT == 2 )); then
    local -a commands=(
{list}    )
    _describe command commands
    return
  fi
  local command=$words[2]
  shift words
  (( CURRENT-- ))
  case $command in
{cases}  esac
}}
_jestrunas \"$@\"
"
    )
}

pub fn fish() -> String {
    let mut script = "complete -c jestrunas -f\n".to_owned();
    for command in &COMMANDS {
        let about = quoted(command.about).replace("'\\''", "\\'");
        script += &format!("complete -c jestrunas -n __fish_use_subcommand -a {} -d {about}\n", command.name);
    }
    for command in &COMMANDS {
        let seen = format!("complete -c jestrunas -n '__fish_seen_subcommand_from {}'", command.name);
        for switch in switches(command) {
            let names: String = switch
                .names
                .iter()
                .map(|name| match name.strip_prefix("--") {
                    Some(long) => format!(" -l {long}"),
                    None => format!(" -s {}", &name[1..]),
                })
                .collect();
            let value = match (switch.value, switch.words) {
                (None, _) => "",
                (Some(_), Words::Files) => " -r -F",
                (Some(_), _) => " -x",
            };
            script += &format!("{seen}{names}{value} -d {}\n", quoted(switch.about).replace("'\\''", "\\'"));
        }
        match operand_words(command) {
            Words::Files => script += &format!("{seen} -F\n"),
            Words::Any => {}
            words => script += &format!("{seen} -a '{}'\n", offered(words)),
        }
    }
    script
}
