//! A line that says a record.

use super::echo::quoted;
use super::sentence::{port_of, Sentence};
use super::token::Token;
use super::Wrong;
use crate::action::Transfer;
use crate::header::HeaderSet;
use crate::limits::MOST_WORDS;
use crate::record::{Edge, Entry, Link, Record};
use crate::version::Version;

/// A record, and where it stands.
pub(super) struct Line<'t> {
    pub(super) first: Token<'t>,
    /// Its first port.
    pub(super) port: Token<'t>,
    /// It has the fields of the text's version alone.
    pub(super) record: Widest,
}

/// A record in the words of any version.
type Widest = Record<MOST_WORDS>;

impl<'t> Line<'t> {
    /// The record whose line has this first word, and these further ones, in a text
    /// of this version.
    pub(super) fn parse(
        first: Token<'t>,
        words: &mut Sentence<'t>,
        version: Version,
    ) -> Result<Line<'t>, Wrong> {
        let parse: Parse = match first.text {
            "edge" => edge,
            "link" => link,
            "entry" => entry,
            other => {
                let said = quoted(other);
                let message = format!(
                    "{said}: a line is version, openflow, an edge, a link, an entry, a name or \
                     a switch"
                );
                return Err(first.wrong(message));
            }
        };
        let port = words.want("a port")?;
        let record = parse(&port, words, version)?;
        words.end()?;
        Ok(Line {
            first,
            port,
            record,
        })
    }
}

type Parse = fn(&Token, &mut Sentence, Version) -> Result<Widest, Wrong>;

fn edge(port: &Token, words: &mut Sentence, version: Version) -> Result<Widest, Wrong> {
    let port = port_of(port)?;
    words.keyword("group")?;
    let group = words.number("group", u16::MAX)?;
    words.keyword("admits")?;
    let admitted = words.set(version)?;
    Ok(Record::Edge(Edge {
        group,
        port,
        admitted,
    }))
}

fn link(from: &Token, words: &mut Sentence, _: Version) -> Result<Widest, Wrong> {
    let from = port_of(from)?;
    words.keyword("->")?;
    let to = port_of(&words.want("a port")?)?;
    Ok(Record::Link(Link { from, to }))
}

fn entry(in_port: &Token, words: &mut Sentence, version: Version) -> Result<Widest, Wrong> {
    let in_port = port_of(in_port)?;
    words.keyword("->")?;
    let out = words.want("a port or 'drop'")?;
    let out_port = match out.text {
        "drop" => 0,
        _ => port_of(&out)?,
    };
    words.keyword("priority")?;
    let priority = words.number("priority", u16::MAX)?;
    words.keyword("match")?;
    let matching = words.set(version)?;
    let (transfer, rewrite) = action(words, version)?;
    Ok(Record::Entry(Entry {
        priority,
        in_port,
        out_port,
        matching,
        transfer,
        rewrite,
    }))
}

/// The transfers that a line names; one that names none has none.
const NAMED: [Transfer; 2] = [Transfer::Copy, Transfer::Swap];

/// What stands behind an entry's match: a transfer, then a rewrite; either may
/// be missing.
fn action(
    words: &mut Sentence,
    version: Version,
) -> Result<(Transfer, HeaderSet<MOST_WORDS>), Wrong> {
    let first = words.next();
    let named = |word: Token| NAMED.into_iter().find(|named| named.name() == word.text);
    let transfer = first.and_then(named);
    let (next, expected) = match transfer {
        Some(_) => (words.next(), "'set'"),
        None => (first, "'copy', 'swap' or 'set'"),
    };
    let rewrite = match next {
        Some(word) if word.text == "set" => words.set(version)?,
        Some(word) => {
            return Err(word.wrong(format!("{} instead of {expected}", quoted(word.text))));
        }
        None => HeaderSet::ALL_WILD,
    };
    Ok((transfer.unwrap_or_default(), rewrite))
}
