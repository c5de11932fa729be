//! Names in a text: `name 12 storage-a`, `switch leaf-1 11 12`.

use std::str::FromStr;

use super::echo::quoted;
use super::lines::lines;
use super::sentence::{port_of, Sentence};
use super::token::Token;
use super::Wrong;
use crate::names::Names;

/// How a line that names something begins.
pub(super) fn begins_a_name(first: &Token) -> bool {
    matches!(first.text, NAME | SWITCH)
}

const NAME: &str = "name";
const SWITCH: &str = "switch";

impl Names {
    /// Adds what the line with this first word, and these further ones, says.
    pub(super) fn add(&mut self, first: &Token, words: &mut Sentence) -> Result<(), Wrong> {
        match first.text {
            NAME => self.add_name(words),
            SWITCH => self.add_switch(words),
            other => {
                let message = format!("{}: a line is a name or a switch", quoted(other));
                Err(first.wrong(message))
            }
        }
    }

    fn add_name(&mut self, words: &mut Sentence) -> Result<(), Wrong> {
        let port = port_named(&words.want("a port")?)?;
        let name = words.want("a name")?;
        self.name_port(port, name.text)
            .map_err(|why| name.wrong(why))?;
        words.end()
    }

    fn add_switch(&mut self, words: &mut Sentence) -> Result<(), Wrong> {
        let name = words.want("a name")?;
        self.name_switch(name.text).map_err(|why| name.wrong(why))?;
        let mut next = Some(words.want("a port")?);
        while let Some(token) = next {
            let port = port_named(&token)?;
            self.put_on(name.text, port)
                .map_err(|why| token.wrong(why))?;
            next = words.next();
        }
        Ok(())
    }
}

fn port_named(token: &Token) -> Result<u16, Wrong> {
    match port_of(token)? {
        0 => Err(token.wrong("there is no port 0")),
        port => Ok(port),
    }
}

impl FromStr for Names {
    type Err = Wrong;

    /// A text that says names alone.
    fn from_str(text: &str) -> Result<Names, Wrong> {
        let mut names = Names::default();
        for line in lines(text) {
            let mut words = Sentence::new(line?);
            if let Some(first) = words.next() {
                names.add(&first, &mut words)?;
            }
        }
        Ok(names)
    }
}
