//! The command `mwishovala`: what it is told, what it prints, its status.

mod arguments;
mod audit;
mod covered;
mod describe;
mod dot;
mod foreign;
mod gate;
mod inquiry;
mod json;
mod judged;
mod list;
mod loaded;
mod manual;
mod pack;
mod replace;
mod run;
mod show;
mod source;
mod table;
mod threads;
mod ties;
mod verdict;
mod widen;
mod written;

use std::ffi::OsString;
use std::io::{self, BufWriter, Write};
use std::process::ExitCode;

use arguments::{Order, Task};
use inquiry::advice;
use json::Members;
use source::Source;

use crate::refusal::Refusal;
use crate::version::Version;

/// Statuses: nothing foreign gets through, something does, no answer.
const ISOLATED: u8 = 0;
const REACHED: u8 = 1;
const NO_ANSWER: u8 = 2;
/// The status of a command that judges nothing.
const DONE: u8 = 0;

/// Where a command writes its answer.
type Output<'a> = &'a mut dyn Write;

/// Why there is no answer.
enum Failure {
    /// Bad use, a file that can't be read or written, a text that is wrong.
    Error(String),
    /// A question got a no; with the file, and what else JSON says of it.
    Refused {
        file: String,
        refusal: Refusal,
        about: Members,
    },
    /// The answer can't be written to standard output.
    Output(io::Error),
}

/// Only what is written to an `Output` fails with a plain `io::Error`.
impl From<io::Error> for Failure {
    fn from(error: io::Error) -> Failure {
        Failure::Output(error)
    }
}

/// Does what these words say. A standard output that was closed from the start
/// is told, since nothing can be written there.
pub fn main(words: impl Iterator<Item = OsString>, output_is_open: bool) -> ExitCode {
    let words: Vec<OsString> = words.collect();
    let command = arguments::command_of(&words);
    let json = arguments::wants_json(&words).then_some(command);
    let mut out = BufWriter::new(io::stdout().lock());
    let answered = match output_is_open {
        true => answer(words, &mut out),
        false => Err(Failure::Output(io::Error::other("it is closed"))),
    };
    let status = answered.unwrap_or_else(|failure| report(failure, json, &mut out));
    ExitCode::from(status)
}

/// The status, once all is written.
fn answer(words: Vec<OsString>, out: Output) -> Result<u8, Failure> {
    let status = perform(arguments::parse(words)?, out)?;
    out.flush()?;
    Ok(status)
}

fn perform(order: Order, out: Output) -> Result<u8, Failure> {
    match order {
        Order::Print(text, status) => {
            out.write_all(text.as_bytes())?;
            Ok(status)
        }
        Order::Pack { text, file } => pack::pack(&text, &file, out),
        Order::About(file, task) => {
            let bytes = file.read()?;
            match Version::of_file(&bytes) {
                Version::V1 => perform_on::<4>(&file, bytes, &task, out),
                Version::V2 => perform_on::<8>(&file, bytes, &task, out),
            }
        }
    }
}

/// Does it with a fabric whose headers have so many words, as its file says.
fn perform_on<const N: usize>(
    file: &Source,
    bytes: Vec<u8>,
    task: &Task,
    out: Output,
) -> Result<u8, Failure> {
    let mut loaded = file.load::<N>(bytes)?;
    // The line that a mount hangs on has no names in it.
    if !matches!(task, Task::Gate(_)) {
        loaded.names = file.names()?;
    }
    let loaded = &loaded;
    match task {
        Task::Verdict(trace) => verdict::verdict(loaded, trace, out),
        Task::Gate(gate) => gate::gate(loaded, gate, out),
        Task::List(trace) => list::list(loaded, trace, out),
        Task::Run(packet) => run::run(loaded, packet, out),
        Task::Audit(audit) => audit::audit(loaded, audit, out),
        Task::Show => show::show(loaded, out),
        Task::Widen { file: wide } => widen::widen(file, loaded, wide, out),
        Task::Dot(query) => dot::dot(loaded, query.as_ref(), out),
    }
}

/// A failure goes to standard error; where JSON is asked for, of a command if
/// there is one, to standard output.
fn report(failure: Failure, json: Option<Option<&str>>, out: Output) -> u8 {
    let message = match (failure, json) {
        (Failure::Output(error), _) => unwritten(&error),
        (failure, Some(command)) => match in_json(failure, command, out) {
            Ok(()) => return NO_ANSWER,
            Err(error) => unwritten(&error),
        },
        (Failure::Error(message), None) => message,
        (Failure::Refused { file, refusal, .. }, None) => match advice(&refusal) {
            Some(advice) => format!("{file}: {refusal}; {advice}"),
            None => format!("{file}: {refusal}"),
        },
    };
    // Standard error may be closed; the status says it all the same.
    let _ = writeln!(io::stderr(), "mwishovala: {message}");
    NO_ANSWER
}

fn in_json(failure: Failure, command: Option<&str>, out: Output) -> io::Result<()> {
    let (about, why) = match failure {
        Failure::Refused { about, refusal, .. } => (about, json::refused(&refusal)),
        Failure::Error(message) => (Members::new(), json::failed(&message)),
        Failure::Output(error) => return Err(error),
    };
    let mut members = json::head(command);
    members.extend(about);
    members.push(("refused", why));
    json::write(out, members)?;
    out.flush()
}

fn unwritten(error: &io::Error) -> String {
    format!("standard output: {error}")
}
