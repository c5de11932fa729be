//! `mwishovala list`. Finds are written one after the other: there may be
//! millions.

mod lost;

use std::io;

use super::arguments::Trace;
use super::foreign::Share;
use super::inquiry::{Asked, Inquiry};
use super::json::{self, Json, Members};
use super::judged::leads_further;
use super::loaded::Loaded;
use super::table::table;
use super::{describe, threads, Failure, Output, DONE};
use crate::calls::list_growing;
use crate::equals::Equals;
use crate::finds::{Find, Finds};
use crate::query::{Query, Target};

/// The most bytes that a list may take.
const MOST_AREA: usize = 256 << 20;

pub(super) fn list<const N: usize>(
    loaded: &Loaded<N>,
    trace: &Trace,
    out: Output,
) -> Result<u8, Failure> {
    let query = loaded.query(&trace.query)?;
    let inquiry = Inquiry::of("list", loaded, Asked::Target(query));
    let mut area = Vec::new();
    let finds = threads::call(|| list_growing(&loaded.bytes, &mut area, MOST_AREA, &query))?
        .map_err(|refusal| inquiry.refused(refusal))?;
    match trace.json {
        true => in_json(out, &inquiry, &query, finds)?,
        false => in_words(out, &inquiry, query.target(), finds)?,
    }
    Ok(DONE)
}

fn in_words<const N: usize>(
    out: Output,
    inquiry: &Inquiry<N>,
    target: Target,
    finds: Finds<N>,
) -> io::Result<()> {
    let loaded = inquiry.loaded;
    let only = inquiry.only();
    let (nothing, of_what) = match target {
        Target::Port(port) => {
            let port = loaded.port(port);
            let nothing = format!("nothing gets out at port {port}");
            (nothing, format!("at port {port}"))
        }
        Target::Lost => ("nothing is lost".into(), "of packets that are lost".into()),
    };
    match finds.clone().count() {
        0 => writeln!(out, "{nothing}{only}")?,
        count => {
            let count = describe::counted(count, "find", "finds");
            writeln!(out, "{count} {of_what}{only}\n")?;
            let equals = Equals::of(&loaded.fabric);
            let rows = finds.clone();
            match target {
                Target::Port(port) => table(
                    out,
                    HEADING,
                    rows.map(|find| row(loaded, port, &equals, &find)),
                ),
                Target::Lost => table(
                    out,
                    lost::HEADING,
                    rows.map(|find| lost::row(loaded, &equals, &find)),
                ),
            }?;
            notes(out, loaded, target, &equals, finds)?;
        }
    }
    inquiry.in_words(out)
}

/// What stands behind an entry after 'or'.
const OR: &str = "or: of the same priority, and might take these packets too, or some of them";

/// What the words in the table mean that need it.
fn notes<const N: usize>(
    out: Output,
    loaded: &Loaded<N>,
    target: Target,
    equals: &Equals<N>,
    mut finds: Finds<N>,
) -> io::Result<()> {
    let has_choice = |find: Find<N>| equals.along(&find).iter().any(|at| !at.is_empty());
    if finds.clone().any(has_choice) {
        writeln!(out, "\n{OR}")?;
    }
    if target == Target::Lost && finds.any(|find| lost::has_others(loaded, &find)) {
        writeln!(out, "\n{}", lost::WITHIN)?;
    }
    Ok(())
}

const HEADING: [&str; 6] = ["from", "group", "whose", "hops", "entries", "headers"];

/// The find's group, and whose packets it holds.
fn whose<const N: usize>(loaded: &Loaded<N>, target: u32, find: &Find<N>) -> Option<(u16, Share)> {
    let edge = loaded.fabric.edge(find.port)?;
    let target = loaded.fabric.edge(u16::try_from(target).ok()?)?;
    Some((edge.group, Share::of(find, edge, target)))
}

fn row<const N: usize>(
    loaded: &Loaded<N>,
    target: u32,
    equals: &Equals<N>,
    find: &Find<N>,
) -> [String; 6] {
    let (group, share) = match whose(loaded, target, find) {
        Some((group, share)) => (group.to_string(), share.name()),
        None => ("-".into(), "-"),
    };
    [
        loaded.port(find.port),
        group,
        share.into(),
        find.hops.to_string(),
        entries(equals, find),
        find.set.to_string(),
    ]
}

/// The entries of a find, each with the others that might take its packets.
fn entries<const N: usize>(equals: &Equals<N>, find: &Find<N>) -> String {
    let entries = find.entries.iter().zip(equals.along(find));
    describe::listed(entries.map(|(entry, equals)| format!("{entry}{}", describe::or(&equals))))
}

fn in_json<const N: usize>(
    out: Output,
    inquiry: &Inquiry<N>,
    query: &Query<N>,
    finds: Finds<N>,
) -> io::Result<()> {
    let loaded = inquiry.loaded;
    let further = leads_further(&loaded.fabric, query);
    let mut members = inquiry.in_json();
    members.push(("further", Json::Truth(further)));
    out.write_all(b"{")?;
    for (name, value) in members {
        write!(out, "{}:{value},", json::text(name))?;
    }
    out.write_all(b"\"finds\":[")?;
    let equals = Equals::of(&loaded.fabric);
    for (place, find) in finds.enumerate() {
        let find = match query.target() {
            Target::Port(port) => find_in_json(loaded, port, &equals, &find),
            Target::Lost => lost::in_json(loaded, &equals, &find),
        };
        write!(out, "{}{find}", json::comma(place))?;
    }
    out.write_all(b"]}\n")
}

fn find_in_json<const N: usize>(
    loaded: &Loaded<N>,
    target: u32,
    equals: &Equals<N>,
    find: &Find<N>,
) -> Json {
    let mut members = vec![("port", json::number(find.port))];
    if let Some((group, share)) = whose(loaded, target, find) {
        members.push(("group", json::number(group)));
        members.push(("whose", json::text(share.name())));
    }
    members.extend(way_in_json(equals, find));
    Json::Object(members)
}

/// The way of a find, and its headers.
fn way_in_json<const N: usize>(equals: &Equals<N>, find: &Find<N>) -> Members {
    let equals = equals.along(find).into_iter();
    vec![
        ("hops", json::number(find.hops)),
        ("entries", json::numbers(&find.entries)),
        ("equals", json::list(equals.map(|at| json::numbers(&at)))),
        ("headers", json::set(&find.set)),
    ]
}
