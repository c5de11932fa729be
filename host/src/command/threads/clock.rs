//! How long it works, on a terminal.

use std::io::{self, IsTerminal, Write};
use std::time::Instant;

/// No line that it shows is longer.
const COLUMNS: usize = 60;

pub(super) struct Clock {
    begun: Instant,
    /// What is counted, if something is.
    what: Option<&'static str>,
    on_a_terminal: bool,
    shown: bool,
}

impl Clock {
    pub(super) fn new(what: Option<&'static str>) -> Clock {
        Clock {
            begun: Instant::now(),
            what,
            on_a_terminal: io::stderr().is_terminal(),
            shown: false,
        }
    }

    pub(super) fn show(&mut self, done: usize, all: usize) {
        if self.on_a_terminal {
            let said = said(self.what, done, all, self.begun.elapsed().as_secs());
            let _ = write!(io::stderr(), "\r{said:COLUMNS$}");
            self.shown = true;
        }
    }

    /// Takes the line away again.
    pub(super) fn clear(&self) {
        if self.shown {
            let _ = write!(io::stderr(), "\r{:COLUMNS$}\r", "");
        }
    }
}

/// What a terminal shows.
pub(super) fn said(what: Option<&str>, done: usize, all: usize, seconds: u64) -> String {
    match what {
        Some(what) => format!("working for {seconds} s: {done} of {all} {what}"),
        None => format!("working for {seconds} s"),
    }
}
