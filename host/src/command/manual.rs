//! The one table of commands and options. Arguments are read by it; the help,
//! the manual page and the completions are made from it.

mod commands;
mod completions;
mod help;
mod page;
mod topics;

pub(super) use completions::{completions, Shell};
pub(super) use help::{help, overview};
pub(super) use page::page;

use crate::raw;

/// The program's version.
pub(super) const VERSION: &str = env!("CARGO_PKG_VERSION");

/// What `--version` prints: the program's, and which library is linked.
pub(super) fn version() -> String {
    format!("mwishovala {VERSION}\nlibrary: {}\n", raw::library())
}

/// The program in a sentence.
const PROGRAM: &str = "can a foreign packet get out at a port of a switch fabric?";

/// What a list takes in the place of a target port.
pub(super) const LOST: &str = "lost";

/// What can be asked of the program.
pub(super) struct Command {
    pub(super) name: &'static str,
    pub(super) operands: &'static [Operand],
    pub(super) settings: &'static [Setting],
    /// In a line.
    summary: &'static str,
    /// What else there is to know, a paragraph each.
    about: &'static [&'static str],
    /// What a status of 0 and of 1 means; 2 is always `NO_ANSWER`.
    statuses: &'static [(u8, &'static str)],
}

/// A word that stands at its place.
pub(super) struct Operand {
    name: &'static str,
    /// What is missing if it is.
    pub(super) what: &'static str,
    kind: Kind,
    optional: bool,
}

/// What an operand can be, for completions.
#[derive(Clone, Copy, PartialEq, Eq)]
enum Kind {
    File,
    Command,
    Shell,
    /// A port, or what is lost.
    Target,
    Other,
}

/// An option.
pub(super) struct Setting {
    pub(super) name: &'static str,
    /// What its value is called, if it takes one.
    pub(super) value: Option<&'static str>,
    about: &'static str,
    usual: Usual,
}

/// What holds if an option isn't given.
enum Usual {
    Nothing,
    Word(&'static str),
    Number(u32),
}

impl Command {
    pub(super) const ALL: &'static [Command] = commands::ALL;

    pub(super) fn named(name: &str) -> Option<&'static Command> {
        Command::ALL.iter().find(|command| command.name == name)
    }

    /// `mwishovala verdict FABRIC TARGET`
    fn usage(&self) -> String {
        let operands = self.operands.iter().map(|operand| match operand.optional {
            true => format!(" [{}]", operand.name),
            false => format!(" {}", operand.name),
        });
        format!("mwishovala {}{}", self.name, operands.collect::<String>())
    }
}

impl Setting {
    /// `--hops N`
    fn usage(&self) -> String {
        match self.value {
            Some(value) => format!("{} {value}", self.name),
            None => self.name.into(),
        }
    }

    /// With what holds if it isn't given.
    fn described(&self) -> String {
        match self.usual {
            Usual::Nothing => self.about.into(),
            Usual::Word(word) => format!("{} (default: {word})", self.about),
            Usual::Number(number) => format!("{} (default: {number})", self.about),
        }
    }
}

/// Every option that some command has, once each.
fn all_settings() -> Vec<&'static Setting> {
    let mut all: Vec<&Setting> = Vec::new();
    for setting in Command::ALL.iter().flat_map(|command| command.settings) {
        if all.iter().all(|other| other.name != setting.name) {
            all.push(setting);
        }
    }
    all
}

/// Whether some command has an option of this name.
pub(super) fn is_a_setting(name: &str) -> bool {
    all_settings().iter().any(|setting| setting.name == name)
}
