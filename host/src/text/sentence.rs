//! A line's words, one after the other.

use super::echo::quoted;
use super::sets::parse_set;
use super::token::Token;
use super::Wrong;
use crate::header::HeaderSet;
use crate::limits::{MOST_PORT, MOST_WORDS};
use crate::version::Version;

pub(super) struct Sentence<'t> {
    words: std::vec::IntoIter<Token<'t>>,
    /// Where a word is missing.
    after: Token<'t>,
}

impl<'t> Sentence<'t> {
    pub(super) fn new(line: Token<'t>) -> Sentence<'t> {
        Sentence {
            words: line.words().collect::<Vec<_>>().into_iter(),
            after: line.end(),
        }
    }

    pub(super) fn next(&mut self) -> Option<Token<'t>> {
        self.words.next()
    }

    pub(super) fn want(&mut self, what: &str) -> Result<Token<'t>, Wrong> {
        let missing = || self.after.wrong(format!("{what} is missing"));
        self.words.next().ok_or_else(missing)
    }

    pub(super) fn keyword(&mut self, keyword: &str) -> Result<(), Wrong> {
        let word = self.want(&format!("'{keyword}'"))?;
        if word.text == keyword {
            return Ok(());
        }
        Err(word.wrong(format!("{} instead of '{keyword}'", quoted(word.text))))
    }

    pub(super) fn number(&mut self, what: &str, most: u16) -> Result<u16, Wrong> {
        self.want(&format!("a {what}"))?.number(what, most)
    }

    /// A set of the fields that this version has, in the words of any.
    pub(super) fn set(&mut self, version: Version) -> Result<HeaderSet<MOST_WORDS>, Wrong> {
        parse_set(self.want("a header set, or 'any',")?, version)
    }

    pub(super) fn end(&mut self) -> Result<(), Wrong> {
        match self.next() {
            Some(word) => Err(word.wrong(format!("{} is too much", quoted(word.text)))),
            None => Ok(()),
        }
    }
}

pub(super) fn port_of(token: &Token) -> Result<u16, Wrong> {
    token.number("port", MOST_PORT)
}
