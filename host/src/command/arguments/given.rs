//! The words of one command: its operands in their order, and its options.

use std::collections::VecDeque;
use std::ffi::{OsStr, OsString};

use super::super::manual::{is_a_setting, Command, Setting, LOST};
use super::super::Failure;
use super::{quoted, wrong, WidestSet};
use crate::query::Target;
use crate::text::{parse_header, Wrong};

/// Options are those that the command has, at most once each.
pub(super) struct Given {
    command: &'static Command,
    operands: VecDeque<OsString>,
    taken: usize,
    settings: Vec<(&'static str, OsString)>,
}

impl Given {
    pub(super) fn sort(
        command: &'static Command,
        mut words: impl Iterator<Item = OsString>,
    ) -> Result<Given, Failure> {
        let mut given = Given {
            command,
            operands: VecDeque::new(),
            taken: 0,
            settings: Vec::new(),
        };
        while let Some(word) = words.next() {
            if word == "--" {
                given.operands.extend(words);
                break;
            }
            match is_an_option(&word) {
                true => given.option(&word, &mut words)?,
                false => given.operands.push_back(word),
            }
        }
        Ok(given)
    }

    /// `--hops 3`, `--hops=3` or `--json`.
    fn option(
        &mut self,
        word: &OsStr,
        rest: &mut impl Iterator<Item = OsString>,
    ) -> Result<(), Failure> {
        let text = word.to_string_lossy();
        let (name, value) = match text.split_once('=') {
            Some((name, value)) => (name, Some(OsString::from(value))),
            None => (&text[..], None),
        };
        let setting = self.setting(name)?;
        let value = match (setting.value, value) {
            (None, None) => OsString::new(),
            (None, Some(_)) => return Err(wrong(format!("{name} takes no value"))),
            (Some(_), Some(value)) => value,
            (Some(_), None) => {
                let missing = || wrong(format!("{name} needs a value"));
                rest.next().ok_or_else(missing)?
            }
        };
        if self.settings.iter().any(|(other, _)| *other == name) {
            return Err(wrong(format!("{name} stands there twice")));
        }
        self.settings.push((setting.name, value));
        Ok(())
    }

    fn setting(&self, name: &str) -> Result<&'static Setting, Failure> {
        let mut settings = self.command.settings.iter();
        settings
            .find(|setting| setting.name == name)
            .ok_or_else(|| {
                wrong(match name {
                    "--help" | "-h" | "--version" => format!("{name} stands alone"),
                    _ if is_a_setting(name) => {
                        format!("{name} is no option of {}", self.command.name)
                    }
                    _ => format!("there is no option {}", quoted(name.as_ref())),
                })
            })
    }

    /// No operand is left.
    pub(super) fn is_empty(&self) -> bool {
        self.operands.is_empty()
    }

    /// Some option is given.
    pub(super) fn has_settings(&self) -> bool {
        !self.settings.is_empty()
    }

    /// What the next operand is.
    fn what(&self) -> &'static str {
        let operand = self.command.operands.get(self.taken);
        operand.map_or("a word", |operand| operand.what)
    }

    pub(super) fn next(&mut self) -> Result<OsString, Failure> {
        let what = self.what();
        let missing = || wrong(format!("{what} is missing"));
        let operand = self.operands.pop_front().ok_or_else(missing)?;
        self.taken += 1;
        Ok(operand)
    }

    pub(super) fn port(&mut self) -> Result<u32, Failure> {
        let what = self.what();
        let word = self.next()?;
        match word == LOST {
            true => Err(wrong(format!("{what}: only list takes '{LOST}'"))),
            false => number(what, &word),
        }
    }

    /// A port, or what is lost. Ports are asked about by their numbers, so no
    /// port's name is taken for the word, nor the word for a port's name.
    pub(super) fn target(&mut self) -> Result<Target, Failure> {
        let what = self.what();
        let word = self.next()?;
        match word == LOST {
            true => Ok(Target::Lost),
            false => number(what, &word).map(Target::numbered),
        }
    }

    pub(super) fn header(&mut self) -> Result<WidestSet, Failure> {
        let word = self.next()?;
        let header = parse_header(&word.to_string_lossy());
        header.map_err(|error| in_a_word("header", &error))
    }

    pub(super) fn flag(&self, name: &str) -> bool {
        self.value(name).is_some()
    }

    pub(super) fn number(&self, name: &str) -> Result<Option<u32>, Failure> {
        self.value(name)
            .map(|value| number(name, value))
            .transpose()
    }

    pub(super) fn set(&self, name: &str) -> Result<Option<WidestSet>, Failure> {
        let set = self
            .value(name)
            .map(|value| value.to_string_lossy().parse());
        set.transpose().map_err(|error| in_a_word(name, &error))
    }

    fn value(&self, name: &str) -> Option<&OsStr> {
        let mut settings = self.settings.iter();
        settings
            .find(|(other, _)| *other == name)
            .map(|(_, value)| value.as_os_str())
    }

    /// Nothing may be left over.
    pub(super) fn end(self) -> Result<(), Failure> {
        match self.operands.front() {
            Some(word) => Err(wrong(format!("{} is one argument too many", quoted(word)))),
            None => Ok(()),
        }
    }
}

/// - alone is standard input.
fn is_an_option(word: &OsStr) -> bool {
    word != "-" && word.as_encoded_bytes().starts_with(b"-")
}

fn in_a_word(what: &str, error: &Wrong) -> Failure {
    wrong(format!(
        "{what}, column {}: {}",
        error.column, error.message
    ))
}

fn number(what: &str, value: &OsStr) -> Result<u32, Failure> {
    let digits = value
        .to_str()
        .filter(|text| text.chars().all(|digit| digit.is_ascii_digit()));
    let number = digits.and_then(|text| text.parse().ok());
    number.ok_or_else(|| wrong(format!("{what}: {} is no number", quoted(value))))
}
