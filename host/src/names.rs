//! Names that people give to ports and switches. Nothing is asked by them: they
//! stand beside a fabric file, and no proof speaks of them.

use std::collections::{BTreeMap, BTreeSet};
use std::ffi::OsString;
use std::fmt;
use std::fs::File;
use std::io::{ErrorKind, Read};
use std::path::{Path, PathBuf};

/// The most characters of a name.
pub const MOST_NAME: usize = 64;

/// The longest file of names; with a name for each port it has less than half.
const MOST_BYTES: u64 = 1 << 20;

/// A name for a port here and there, and which ports are of one switch.
///
/// ```
/// use mwishovala::Names;
/// let names: Names = "name 12 storage-a\nswitch leaf-1 11 12".parse()?;
/// assert_eq!(names.of_port(12), Some("storage-a"));
/// assert_eq!(names.switch_of(11), Some("leaf-1"));
/// assert_eq!(names.port(12).to_string(), "12 (storage-a on leaf-1)");
/// assert_eq!(names.port(13).to_string(), "13");
/// # Ok::<(), mwishovala::text::Wrong>(())
/// ```
#[derive(Clone, Debug, Default, PartialEq, Eq)]
pub struct Names {
    ports: BTreeMap<u16, String>,
    switches: BTreeMap<String, BTreeSet<u16>>,
}

impl Names {
    /// Where the names of this fabric file are kept: beside it.
    pub fn file_of(fabric: &Path) -> PathBuf {
        let mut name = OsString::from(fabric);
        name.push(".names");
        name.into()
    }

    /// The names kept beside this fabric file: none if there is no such file.
    pub fn beside(fabric: &Path) -> Result<Names, Unreadable> {
        let file = Names::file_of(fabric);
        match read(&file) {
            Ok(text) => text.parse().map_err(|wrong| format!("{wrong}")),
            Err(error) if error.kind() == ErrorKind::NotFound => Ok(Names::default()),
            Err(error) => Err(error.to_string()),
        }
        .map_err(|why| Unreadable { file, why })
    }

    /// Whether nothing has a name.
    pub fn is_empty(&self) -> bool {
        self.ports.is_empty() && self.switches.is_empty()
    }

    /// The name of this port.
    pub fn of_port(&self, port: u16) -> Option<&str> {
        self.ports.get(&port).map(String::as_str)
    }

    /// The name of the switch that this port is on.
    pub fn switch_of(&self, port: u16) -> Option<&str> {
        let mut switches = self.switches.iter();
        switches
            .find(|(_, ports)| ports.contains(&port))
            .map(|(name, _)| name.as_str())
    }

    /// The switches by name, each with its ports, rising.
    pub fn switches(&self) -> impl Iterator<Item = (&str, impl Iterator<Item = u16> + '_)> {
        let switches = self.switches.iter();
        switches.map(|(name, ports)| (name.as_str(), ports.iter().copied()))
    }

    /// This port in words: its number, and its names where it has some.
    pub fn port(&self, port: u16) -> NamedPort<'_> {
        NamedPort { names: self, port }
    }

    /// Names a port, which has no name yet, as no other port has this one.
    pub(crate) fn name_port(&mut self, port: u16, name: &str) -> Result<(), String> {
        checked(name)?;
        if let Some(earlier) = self.of_port(port) {
            return Err(format!("port {port} has a name already, {earlier}"));
        }
        if let Some((other, _)) = self.ports.iter().find(|(_, taken)| *taken == name) {
            return Err(format!("{name} is the name of port {other}"));
        }
        self.ports.insert(port, name.into());
        Ok(())
    }

    /// Begins a switch, without ports yet.
    pub(crate) fn name_switch(&mut self, name: &str) -> Result<(), String> {
        checked(name)?;
        match self.switches.insert(name.into(), BTreeSet::new()) {
            Some(_) => Err(format!("{name} is the name of another switch")),
            None => Ok(()),
        }
    }

    /// Puts a port on a switch; it is on none yet.
    pub(crate) fn put_on(&mut self, switch: &str, port: u16) -> Result<(), String> {
        if let Some(earlier) = self.switch_of(port) {
            return Err(format!("port {port} is on a switch already, {earlier}"));
        }
        if let Some(ports) = self.switches.get_mut(switch) {
            ports.insert(port);
        }
        Ok(())
    }
}

/// The text of a file that isn't too long.
fn read(file: &Path) -> std::io::Result<String> {
    let mut text = String::new();
    let length = File::open(file)?
        .take(MOST_BYTES + 1)
        .read_to_string(&mut text)?;
    match length as u64 > MOST_BYTES {
        true => Err(ErrorKind::FileTooLarge.into()),
        false => Ok(text),
    }
}

/// A letter first, so that no name looks like a port's number.
fn checked(name: &str) -> Result<(), String> {
    let letter = |character: char| character.is_ascii_alphabetic();
    let allowed = |character: char| character.is_ascii_alphanumeric() || "-_.".contains(character);
    if name.len() > MOST_NAME {
        return Err(format!("a name has at most {MOST_NAME} characters"));
    }
    if !name.starts_with(letter) || !name.chars().all(allowed) {
        return Err("a name is a letter, then letters, digits, '-', '_' and '.'".into());
    }
    Ok(())
}

/// The text that says these names.
impl fmt::Display for Names {
    fn fmt(&self, f: &mut fmt::Formatter) -> fmt::Result {
        for (port, name) in &self.ports {
            writeln!(f, "name {port} {name}")?;
        }
        for (name, ports) in &self.switches {
            write!(f, "switch {name}")?;
            for port in ports {
                write!(f, " {port}")?;
            }
            writeln!(f)?;
        }
        Ok(())
    }
}

/// A port in words.
#[derive(Clone, Copy, Debug)]
pub struct NamedPort<'n> {
    names: &'n Names,
    port: u16,
}

impl fmt::Display for NamedPort<'_> {
    fn fmt(&self, f: &mut fmt::Formatter) -> fmt::Result {
        let (names, port) = (self.names, self.port);
        match (names.of_port(port), names.switch_of(port)) {
            (Some(name), Some(switch)) => write!(f, "{port} ({name} on {switch})"),
            (Some(name), None) => write!(f, "{port} ({name})"),
            (None, Some(switch)) => write!(f, "{port} (on {switch})"),
            (None, None) => write!(f, "{port}"),
        }
    }
}

/// A file of names that is there and can't be read.
#[derive(Clone, Debug, PartialEq, Eq)]
#[non_exhaustive]
pub struct Unreadable {
    /// The file.
    pub file: PathBuf,
    /// Why, in words.
    pub why: String,
}

impl fmt::Display for Unreadable {
    fn fmt(&self, f: &mut fmt::Formatter) -> fmt::Result {
        write!(f, "{}: {}", self.file.display(), self.why)
    }
}

impl std::error::Error for Unreadable {}
