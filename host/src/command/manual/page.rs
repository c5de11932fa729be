//! The manual page, as `man` reads it.

use super::topics::{Topic, ARGUMENTS, COVERED, NO_ANSWER, SETS, STATUS, TEXTS};
use super::{all_settings, Command, PROGRAM, VERSION};

pub(in super::super) fn page() -> String {
    let mut page = format!(
        ".TH MWISHOVALA 1 \"\" \"mwishovala {VERSION}\"\n\
         .SH NAME\nmwishovala \\- {}\n.SH SYNOPSIS\n",
        escaped(PROGRAM)
    );
    for command in Command::ALL {
        page += &format!(".B {}\n.br\n", escaped(&with_settings(command)));
    }
    page += ".SH COMMANDS\n";
    for command in Command::ALL {
        page += &described(command);
    }
    page += ".SH OPTIONS\n";
    for setting in all_settings() {
        page += &item(&setting.usage(), &setting.described());
    }
    page += &item("--help", "the help; after a command, all about it");
    page += &item("--version", "the program's version");
    for topic in [ARGUMENTS, COVERED, SETS, TEXTS, STATUS] {
        page += &section(&topic);
    }
    page
}

/// `mwishovala dot FABRIC [TARGET] [--hops N]`
fn with_settings(command: &Command) -> String {
    let settings = command.settings.iter();
    let settings = settings.map(|setting| format!(" [{}]", setting.usage()));
    command.usage() + &settings.collect::<String>()
}

fn described(command: &Command) -> String {
    let mut text = item(&command.usage(), command.summary);
    for paragraph in command.about {
        text += &format!(".IP\n{}\n", escaped(paragraph));
    }
    let statuses = command.statuses.iter();
    let mut statuses: Vec<String> = statuses
        .map(|(status, meaning)| format!("{status}: {meaning}."))
        .collect();
    statuses.push(format!("2: {NO_ANSWER}."));
    text + &format!(".IP\nStatus {}\n", escaped(&statuses.join(" ")))
}

fn item(name: &str, meaning: &str) -> String {
    format!(".TP\n.B {}\n{}\n", escaped(name), escaped(meaning))
}

/// Its lines stand as they are.
fn section(topic: &Topic) -> String {
    let title = topic.title.to_uppercase();
    let lines: String = topic
        .text
        .lines()
        .map(|line| escaped(line) + "\n")
        .collect();
    format!(".SH {title}\n.nf\n{lines}.fi\n")
}

/// What `man` would read as its own is escaped.
fn escaped(text: &str) -> String {
    let text = text
        .replace('\\', "\\e")
        .replace('-', "\\-")
        .replace('\'', "\\(aq");
    match text.starts_with('.') {
        true => format!("\\&{text}"),
        false => text,
    }
}
