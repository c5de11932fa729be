//! What `mwishovala --help` and `mwishovala help COMMAND` print.

use super::topics::{Topic, ARGUMENTS, COVERED, NO_ANSWER, SETS, STATUS, TEXTS};
use super::{all_settings, Command, PROGRAM, VERSION};

/// No line is longer.
const COLUMNS: usize = 80;
/// Where the meaning of a command, of an option and of a status begins.
const OF_A_COMMAND: usize = 38;
const OF_A_SETTING: usize = 17;
const OF_A_STATUS: usize = 5;

/// All commands and options.
pub(in super::super) fn overview() -> String {
    let mut text = format!("mwishovala {VERSION}: {PROGRAM}\n\n");
    for command in Command::ALL {
        text += &item(&command.usage(), command.summary, OF_A_COMMAND);
    }
    text += "\n";
    for setting in all_settings() {
        text += &item(&setting.usage(), &setting.described(), OF_A_SETTING);
    }
    text += &item(
        "--help",
        "this text; after a command, all about it",
        OF_A_SETTING,
    );
    text += &item("--version", "the program's version", OF_A_SETTING);
    for topic in [ARGUMENTS, COVERED, SETS, TEXTS, STATUS] {
        text += &section(&topic);
    }
    text
}

/// All about one command.
pub(in super::super) fn help(command: &Command) -> String {
    let mut text = format!("{}\n\n  {}\n", command.usage(), command.summary);
    for paragraph in command.about {
        text += &format!("\n{}\n", wrapped(paragraph, COLUMNS).join("\n"));
    }
    if !command.settings.is_empty() {
        text += "\nOptions\n";
    }
    for setting in command.settings {
        text += &item(&setting.usage(), &setting.described(), OF_A_SETTING);
    }
    for topic in command.topics() {
        text += &section(topic);
    }
    text += "\nExit status\n";
    for (status, meaning) in command.statuses {
        text += &item(&status.to_string(), meaning, OF_A_STATUS);
    }
    text + &item("2", NO_ANSWER, OF_A_STATUS)
}

impl Command {
    /// What is needed to use it.
    fn topics(&self) -> Vec<&'static Topic> {
        let needed = [
            (self.judges(), &COVERED),
            (self.takes_a_set(), &SETS),
            (self.name == "pack", &TEXTS),
        ];
        let needed = needed.into_iter().filter(|(is_needed, _)| *is_needed);
        needed.map(|(_, topic)| topic).collect()
    }

    /// Whether it says 'isolated'.
    fn judges(&self) -> bool {
        self.statuses.iter().any(|(status, _)| *status == 1)
    }

    fn takes_a_set(&self) -> bool {
        let has_header = self.operands.iter().any(|operand| operand.name == "HEADER");
        let mut settings = self.settings.iter();
        has_header || settings.any(|setting| setting.value == Some("SET"))
    }
}

fn section(topic: &Topic) -> String {
    format!("\n{}\n{}", topic.title, topic.text)
}

/// A name, and from this column on what it means; below it, if it is long.
fn item(name: &str, meaning: &str, column: usize) -> String {
    let mut first = format!("  {name}");
    let mut text = String::new();
    if first.len() >= column {
        text += &format!("{first}\n");
        first.clear();
    }
    for line in wrapped(meaning, COLUMNS - column) {
        text += &format!("{first:<column$}{line}\n");
        first.clear();
    }
    text
}

/// The words of a text in lines of at most so many columns, if no word is
/// longer.
fn wrapped(text: &str, columns: usize) -> Vec<String> {
    let mut lines: Vec<String> = Vec::new();
    for word in text.split_whitespace() {
        match lines.last_mut() {
            Some(line) if line.len() + 1 + word.len() <= columns => {
                line.push(' ');
                line.push_str(word);
            }
            _ => lines.push(word.into()),
        }
    }
    lines
}
