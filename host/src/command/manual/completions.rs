//! Completions for shells.

use super::{Command, Kind, Setting, LOST};

/// A shell that completions can be made for.
#[derive(Clone, Copy)]
pub(in super::super) enum Shell {
    Bash,
    Fish,
}

impl Shell {
    const ALL: [(&'static str, Shell); 2] = [("bash", Shell::Bash), ("fish", Shell::Fish)];

    pub(in super::super) fn named(name: &str) -> Option<Shell> {
        let mut all = Shell::ALL.iter();
        all.find(|(other, _)| *other == name)
            .map(|(_, shell)| *shell)
    }
}

pub(in super::super) fn completions(shell: Shell) -> String {
    match shell {
        Shell::Bash => bash(),
        Shell::Fish => fish(),
    }
}

/// The first word is a command; after it come the command's options, and what
/// its operands can be.
fn bash() -> String {
    let mut cases = String::new();
    for command in Command::ALL {
        let words = [settings(command), operands(command)].concat().join(" ");
        let files = match takes_files(command) {
            true => " files=yes",
            false => "",
        };
        cases += &format!("    {}) words='{words} --help'{files} ;;\n", command.name);
    }
    let commands = command_names().join(" ");
    format!(
        "_mwishovala() {{
  local word=${{COMP_WORDS[COMP_CWORD]}} words='' files=''
  if [ \"$COMP_CWORD\" -eq 1 ]; then
    words='{commands} --help --version'
  else case ${{COMP_WORDS[1]}} in
{cases}  esac; fi
  mapfile -t COMPREPLY < <(
    compgen -W \"$words\" -- \"$word\"
    [ -z \"$files\" ] || compgen -f -- \"$word\"
  )
}}
complete -o filenames -F _mwishovala mwishovala
"
    )
}

fn fish() -> String {
    let commands = command_names().join(" ");
    let first = format!("not __fish_seen_subcommand_from {commands}");
    let mut text = String::from("complete -c mwishovala -f\n");
    let mut line = |when: &str, rest: String| {
        text += &format!("complete -c mwishovala -n '{when}' {rest}\n");
    };
    for option in ["help", "version"] {
        line(&first, format!("-l {option}"));
    }
    for command in Command::ALL {
        let summary = command.summary.replace('\'', "\\'");
        line(&first, format!("-a {} -d '{summary}'", command.name));
        let after = format!("__fish_seen_subcommand_from {}", command.name);
        for setting in command.settings {
            line(&after, fish_setting(setting));
        }
        let operands = operands(command).join(" ");
        if !operands.is_empty() {
            line(&after, format!("-a '{operands}'"));
        }
        if takes_files(command) {
            line(&after, "-F".into());
        }
    }
    text
}

fn fish_setting(setting: &Setting) -> String {
    let name = setting.name.trim_start_matches('-');
    let value = if setting.value.is_some() { " -x" } else { "" };
    let about = setting.described().replace('\'', "\\'");
    format!("-l {name}{value} -d '{about}'")
}

fn command_names() -> Vec<&'static str> {
    Command::ALL.iter().map(|command| command.name).collect()
}

fn settings(command: &Command) -> Vec<&'static str> {
    command
        .settings
        .iter()
        .map(|setting| setting.name)
        .collect()
}

/// The words that an operand can be, where these are few.
fn operands(command: &Command) -> Vec<&'static str> {
    let kinds = command.operands.iter().map(|operand| operand.kind);
    kinds
        .flat_map(|kind| match kind {
            Kind::Command => command_names(),
            Kind::Shell => Shell::ALL.map(|(name, _)| name).to_vec(),
            Kind::Target => vec![LOST],
            Kind::File | Kind::Other => Vec::new(),
        })
        .collect()
}

fn takes_files(command: &Command) -> bool {
    let mut operands = command.operands.iter();
    operands.any(|operand| operand.kind == Kind::File)
}
