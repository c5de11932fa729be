//! Answers for programs. `docs/JSON.md` has each with an example.

use std::fmt;

use super::describe::rewrite;
use super::inquiry::advice;
use super::manual::VERSION;
use super::Output;
use crate::field::Field;
use crate::header::{Header, HeaderSet};
use crate::refusal::Refusal;
use crate::takers::Hop;
use crate::version::Version;

/// A JSON value.
pub(super) enum Json {
    Null,
    Truth(bool),
    Number(u64),
    Text(String),
    List(Vec<Json>),
    Object(Members),
    /// Its members have names that are no words of ours.
    Map(Vec<(String, Json)>),
}

/// What an object has.
pub(super) type Members = Vec<(&'static str, Json)>;

impl fmt::Display for Json {
    fn fmt(&self, f: &mut fmt::Formatter) -> fmt::Result {
        match self {
            Json::Null => f.write_str("null"),
            Json::Truth(truth) => write!(f, "{truth}"),
            Json::Number(number) => write!(f, "{number}"),
            Json::Text(text) => write_text(f, text),
            Json::List(values) => {
                f.write_str("[")?;
                for (place, value) in values.iter().enumerate() {
                    write!(f, "{}{value}", comma(place))?;
                }
                f.write_str("]")
            }
            Json::Object(members) => {
                write_members(f, members.iter().map(|(name, value)| (*name, value)))
            }
            Json::Map(members) => {
                write_members(f, members.iter().map(|(name, value)| (&name[..], value)))
            }
        }
    }
}

fn write_members<'j>(
    f: &mut fmt::Formatter,
    members: impl Iterator<Item = (&'j str, &'j Json)>,
) -> fmt::Result {
    f.write_str("{")?;
    for (place, (name, value)) in members.enumerate() {
        f.write_str(comma(place))?;
        write_text(f, name)?;
        write!(f, ":{value}")?;
    }
    f.write_str("}")
}

/// What stands before the value at this place.
pub(super) fn comma(place: usize) -> &'static str {
    match place {
        0 => "",
        _ => ",",
    }
}

fn write_text(f: &mut fmt::Formatter, text: &str) -> fmt::Result {
    f.write_str("\"")?;
    for character in text.chars() {
        match character {
            '"' | '\\' => write!(f, "\\{character}")?,
            control if control < ' ' => write!(f, "\\u{:04x}", control as u32)?,
            other => write!(f, "{other}")?,
        }
    }
    f.write_str("\"")
}

pub(super) fn text(value: impl fmt::Display) -> Json {
    Json::Text(value.to_string())
}

pub(super) fn number(value: impl Into<u64>) -> Json {
    Json::Number(value.into())
}

pub(super) fn list(values: impl Iterator<Item = Json>) -> Json {
    Json::List(values.collect())
}

/// An answer on a line of its own.
pub(super) fn write(out: Output, members: Members) -> std::io::Result<()> {
    writeln!(out, "{}", Json::Object(members))
}

/// How every answer begins.
pub(super) fn head(command: Option<&str>) -> Members {
    vec![
        ("command", command.map_or(Json::Null, text)),
        ("version", text(VERSION)),
    ]
}

/// Addresses are text, other fields numbers.
pub(super) fn header<const N: usize>(header: &Header<N>) -> Json {
    let fields = Field::all_in(Version::of::<N>());
    Json::Object(
        fields
            .map(|field| (field.name(), of_field(field, header)))
            .collect(),
    )
}

fn of_field<const N: usize>(field: Field, header: &Header<N>) -> Json {
    match field.is_address() {
        true => Json::Text(header.in_words(field)),
        false => number(header.get(field)),
    }
}

/// In words, field by field where it cares, and as document 01's care and value.
pub(super) fn set<const N: usize>(set: &HeaderSet<N>) -> Json {
    in_words(set, &set.to_string())
}

fn in_words<const N: usize>(set: &HeaderSet<N>, said: &str) -> Json {
    let words = |words: &[u32; N]| list(words.iter().map(|word| text(format!("{word:08x}"))));
    Json::Object(vec![
        ("text", text(said)),
        ("fields", fields(set)),
        ("care", words(&set.care)),
        ("value", words(&set.value)),
    ])
}

fn fields<const N: usize>(set: &HeaderSet<N>) -> Json {
    let (value, mask) = (Header(set.value), Header(set.care));
    let fields = Field::all_in(Version::of::<N>());
    let cared_for = fields.filter(|field| mask.get(*field) != 0);
    let part = |field: Field| {
        let members = vec![
            ("value", of_field(field, &value)),
            ("mask", of_field(field, &mask)),
        ];
        (field.name(), Json::Object(members))
    };
    Json::Object(cared_for.map(part).collect())
}

/// Ports, or entries by their numbers.
pub(super) fn numbers(values: &[u16]) -> Json {
    list(values.iter().map(|&value| number(value)))
}

/// Entries by their numbers, with what they say, and which others might have
/// taken the packet.
pub(super) fn path<const N: usize>(way: &[Hop<N>]) -> Json {
    list(way.iter().map(|hop| {
        let entry = &hop.entry;
        Json::Object(vec![
            ("entry", number(hop.number)),
            ("in_port", number(entry.in_port)),
            ("out_port", number(entry.out_port)),
            ("priority", number(entry.priority)),
            ("match", set(&entry.matching)),
            ("transfer", text(entry.transfer.name())),
            ("rewrite", in_words(&entry.rewrite, &rewrite(entry))),
            ("equals", numbers(&hop.equals())),
        ])
    }))
}

/// Why there is no answer: a no of the library.
pub(super) fn refused(refusal: &Refusal) -> Json {
    Json::Object(vec![
        ("question", number(refusal.question.number())),
        ("place", number(refusal.place)),
        ("reason", text(&refusal.reason)),
        ("try", advice(refusal).map_or(Json::Null, text)),
    ])
}

/// The same shape where the library wasn't asked.
pub(super) fn failed(reason: &str) -> Json {
    Json::Object(vec![
        ("question", Json::Null),
        ("place", Json::Null),
        ("reason", text(reason)),
        ("try", Json::Null),
    ])
}
