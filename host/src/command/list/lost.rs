//! The finds of packets that are lost, which have no target: what is told of
//! each is where it is lost.

use super::super::json::{self, Json};
use super::super::loaded::Loaded;
use super::{entries, way_in_json};
use crate::equals::Equals;
use crate::finds::Find;
use crate::miss::Miss;

pub(super) const HEADING: [&str; 7] = [
    "from",
    "group",
    "hops",
    "entries",
    "headers",
    "lost at",
    "headers then",
];

/// What stands where a find has no entries.
const AT_ONCE: &str = "none: lost at once";

/// What stands before a set that has other headers too.
pub(super) const WITHIN: &str =
    "within: where nw_src was copied over nw_dst, only headers of the set in which both have the \
     same";

pub(super) fn row<const N: usize>(
    loaded: &Loaded<N>,
    equals: &Equals<N>,
    find: &Find<N>,
) -> [String; 7] {
    let edge = loaded.fabric.edge(find.port);
    let entries = match find.hops {
        0 => AT_ONCE.into(),
        _ => entries(equals, find),
    };
    let (lost_at, then) = match loaded.fabric.miss(find) {
        Some(miss) => (loaded.port(miss.in_port), then(&miss)),
        None => ("-".into(), "-".into()),
    };
    [
        loaded.port(find.port),
        edge.map_or("-".into(), |edge| edge.group.to_string()),
        find.hops.to_string(),
        entries,
        find.set.to_string(),
        lost_at,
        then,
    ]
}

fn then<const N: usize>(miss: &Miss<N>) -> String {
    match miss.exact {
        true => miss.set.to_string(),
        false => format!("within {}", miss.set),
    }
}

/// Whether the set that is told for this find then has other headers too.
pub(super) fn has_others<const N: usize>(loaded: &Loaded<N>, find: &Find<N>) -> bool {
    let miss = loaded.fabric.miss(find);
    miss.is_some_and(|miss| !miss.exact)
}

pub(super) fn in_json<const N: usize>(
    loaded: &Loaded<N>,
    equals: &Equals<N>,
    find: &Find<N>,
) -> Json {
    let mut members = vec![("port", json::number(find.port))];
    if let Some(edge) = loaded.fabric.edge(find.port) {
        members.push(("group", json::number(edge.group)));
    }
    members.extend(way_in_json(equals, find));
    if let Some(miss) = loaded.fabric.miss(find) {
        members.extend([
            ("lost_at", json::number(miss.in_port)),
            ("then", json::set(&miss.set)),
            ("exact", Json::Truth(miss.exact)),
        ]);
    }
    Json::Object(members)
}
