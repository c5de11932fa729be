//! What the command is told.

mod given;

use std::ffi::{OsStr, OsString};
use std::thread::available_parallelism;

use super::manual::{self, Command, Shell};
use super::source::Source;
use super::{Failure, DONE, NO_ANSWER};
use crate::header::HeaderSet;
use crate::limits::{MOST_HOPS, MOST_WORDS};
use crate::query::{Query, USUAL_BUDGET};
use given::Given;

pub(super) enum Order {
    /// The help, the version, the manual page or completions; and the status.
    Print(String, u8),
    Pack {
        text: Source,
        file: OsString,
    },
    /// Something about a fabric.
    About(Source, Task),
}

/// What is done with a fabric once it is read.
pub(super) enum Task {
    Verdict(Trace),
    Gate(Gate),
    List(Trace),
    Run(Packet),
    Audit(Audit),
    Show,
    Widen { file: OsString },
    Dot(Option<Widest>),
}

/// What is asked before it is known which fields the fabric's headers have.
pub(super) type Widest = Query<MOST_WORDS>;
pub(super) type WidestSet = HeaderSet<MOST_WORDS>;

/// A verdict or a list.
pub(super) struct Trace {
    pub(super) query: Widest,
    pub(super) json: bool,
}

/// Nothing here can narrow the question.
pub(super) struct Gate {
    pub(super) target: u32,
    pub(super) budget: u32,
}

pub(super) struct Packet {
    pub(super) start: u32,
    /// It cares for the fields that are named.
    pub(super) header: WidestSet,
    pub(super) hops: u32,
    pub(super) json: bool,
}

pub(super) struct Audit {
    /// Its port is each target in turn.
    pub(super) query: Widest,
    pub(super) jobs: usize,
    pub(super) json: bool,
}

/// More targets than these aren't asked about at a time.
const MOST_JOBS: u32 = 64;

/// Whether the answer, or why there is none, is for a program.
pub(super) fn wants_json(words: &[OsString]) -> bool {
    let mut before = words.iter().take_while(|word| *word != "--");
    before.any(|word| word == "--json")
}

/// The command that is asked for, if there is such a one.
pub(super) fn command_of(words: &[OsString]) -> Option<&'static str> {
    let command = words.first()?.to_str().and_then(Command::named)?;
    Some(command.name)
}

/// The help and the version stand alone: a word too many is never passed over,
/// since a status of 0 would then say what nobody asked.
pub(super) fn parse(words: Vec<OsString>) -> Result<Order, Failure> {
    let texts: Vec<Option<&str>> = words.iter().map(|word| word.to_str()).collect();
    match texts[..] {
        [] => return Err(wrong("a command is missing")),
        [Some("--help" | "-h")] => return Ok(print(manual::overview())),
        [Some("--version")] => return Ok(print(manual::version())),
        [Some(name), Some("--help" | "-h")] => {
            return command_named(name).map(help_after);
        }
        [Some(alone @ ("--help" | "-h" | "--version")), ..] => {
            return Err(wrong(format!("{alone} stands alone")));
        }
        _ => (),
    }
    let mut words = words.into_iter();
    let name = words.next().unwrap_or_default();
    let command = match name.to_str() {
        Some(name) => command_named(name)?,
        None => return Err(no_command(&name)),
    };
    let mut given = Given::sort(command, words)?;
    let order = order(command, &mut given)?;
    given.end()?;
    Ok(order)
}

fn order(command: &Command, given: &mut Given) -> Result<Order, Failure> {
    Ok(match command.name {
        "verdict" => given.about(Given::verdict)?,
        "gate" => given.about(Given::gate)?,
        "list" => given.about(Given::list)?,
        "run" => given.about(Given::packet)?,
        "audit" => given.about(Given::audit)?,
        "show" => given.about(|_| Ok(Task::Show))?,
        "widen" => given.about(Given::widen)?,
        "dot" => given.about(Given::picture)?,
        "pack" => Order::Pack {
            text: given.source()?,
            file: given.next()?,
        },
        "man" => print(manual::page()),
        "completions" => print(manual::completions(given.shell()?)),
        "help" if given.is_empty() => print(manual::overview()),
        "help" => print(manual::help(given.command()?)),
        other => return Err(no_command(other.as_ref())),
    })
}

fn print(text: String) -> Order {
    Order::Print(text, DONE)
}

/// A gate's status is 0 for 'isolated' alone, so its help there is no answer.
fn help_after(command: &Command) -> Order {
    let status = match command.name {
        "gate" => NO_ANSWER,
        _ => DONE,
    };
    Order::Print(manual::help(command), status)
}

fn command_named(name: &str) -> Result<&'static Command, Failure> {
    Command::named(name).ok_or_else(|| no_command(name.as_ref()))
}

fn no_command(name: &OsStr) -> Failure {
    wrong(format!("there is no command {}", quoted(name)))
}

fn wrong(message: impl AsRef<str>) -> Failure {
    Failure::Error(format!("{}; see mwishovala --help", message.as_ref()))
}

/// What is echoed has no control characters.
fn quoted(word: &OsStr) -> String {
    format!("'{}'", word.to_string_lossy().escape_debug())
}

impl Given {
    fn source(&mut self) -> Result<Source, Failure> {
        self.next().map(Source)
    }

    /// A fabric, and what further words say.
    fn about(
        &mut self,
        task: impl FnOnce(&mut Given) -> Result<Task, Failure>,
    ) -> Result<Order, Failure> {
        let file = self.source()?;
        Ok(Order::About(file, task(self)?))
    }

    fn query(&mut self, port: u32) -> Result<Widest, Failure> {
        Ok(Query {
            port,
            hops: self.number("--hops")?.unwrap_or(MOST_HOPS),
            budget: self.number("--budget")?.unwrap_or(USUAL_BUDGET),
            asked: self.set("--asked")?.unwrap_or(HeaderSet::ALL_WILD),
        })
    }

    fn verdict(&mut self) -> Result<Task, Failure> {
        let target = self.port()?;
        self.trace(target).map(Task::Verdict)
    }

    /// A list's target may be what is lost.
    fn list(&mut self) -> Result<Task, Failure> {
        let target = self.target()?;
        self.trace(target.number()).map(Task::List)
    }

    fn trace(&mut self, target: u32) -> Result<Trace, Failure> {
        Ok(Trace {
            query: self.query(target)?,
            json: self.flag("--json"),
        })
    }

    fn gate(&mut self) -> Result<Task, Failure> {
        Ok(Task::Gate(Gate {
            target: self.port()?,
            budget: self.number("--budget")?.unwrap_or(USUAL_BUDGET),
        }))
    }

    fn packet(&mut self) -> Result<Task, Failure> {
        Ok(Task::Run(Packet {
            start: self.port()?,
            header: self.header()?,
            hops: self.number("--hops")?.unwrap_or(MOST_HOPS),
            json: self.flag("--json"),
        }))
    }

    fn widen(&mut self) -> Result<Task, Failure> {
        self.next().map(|file| Task::Widen { file })
    }

    fn audit(&mut self) -> Result<Task, Failure> {
        let cores = available_parallelism().map_or(1, usize::from);
        let jobs = match self.number("--jobs")? {
            None => cores.min(MOST_JOBS as usize),
            Some(jobs) if (1..=MOST_JOBS).contains(&jobs) => jobs as usize,
            Some(jobs) => return Err(wrong(format!("--jobs is 1 to {MOST_JOBS}, not {jobs}"))),
        };
        Ok(Task::Audit(Audit {
            query: self.query(0)?,
            jobs,
            json: self.flag("--json"),
        }))
    }

    fn picture(&mut self) -> Result<Task, Failure> {
        // An option asks about a target, so it needs one.
        let query = match self.is_empty() && !self.has_settings() {
            true => None,
            false => {
                let target = self.port()?;
                Some(self.query(target)?)
            }
        };
        Ok(Task::Dot(query))
    }

    fn command(&mut self) -> Result<&'static Command, Failure> {
        let name = self.next()?;
        match name.to_str() {
            Some(name) => command_named(name),
            None => Err(no_command(&name)),
        }
    }

    fn shell(&mut self) -> Result<Shell, Failure> {
        let name = self.next()?;
        let shell = name.to_str().and_then(Shell::named);
        shell.ok_or_else(|| wrong(format!("there are no completions for {}", quoted(&name))))
    }
}
