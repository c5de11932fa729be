//! The ties that matter, for people and for programs.

use super::describe::{counted, entries};
use super::json::{self, Json};
use super::loaded::Loaded;
use crate::fabric::Fabric;
use crate::ties::{Tie, MOST_PARTS};

/// How many there are and a line for each; nothing if there are none.
pub(super) fn in_words<const N: usize>(loaded: &Loaded<N>) -> Vec<String> {
    let mut ties = loaded.fabric.ties();
    // Those that make a difference first.
    ties.sort_by_key(|tie| tie.same);
    if ties.is_empty() {
        return Vec::new();
    }
    let known = ties.iter().filter(|tie| tie.header.is_some()).count();
    let perhaps = match ties.len() - known {
        0 => String::new(),
        more => format!(", {more} more that may"),
    };
    let count = counted(known, "tie that matters", "ties that matter");
    let mut lines = vec![format!(
        "{count}{perhaps}: two entries of the same priority match, and either may take the packet"
    )];
    lines.extend(ties.iter().map(|tie| one_tie(loaded, tie)));
    lines
}

fn one_tie<const N: usize>(loaded: &Loaded<N>, tie: &Tie<N>) -> String {
    let (entries, port) = (entries(&tie.entries), loaded.port(tie.in_port));
    let what = match tie.header {
        Some(header) => format!("either might take {header}"),
        None => format!("they may tie, which takes more than {MOST_PARTS} parts to say"),
    };
    let same = match tie.same {
        true => "; both do the same, but a packet run stops there",
        false => "",
    };
    let priority = tie.priority;
    format!("  {entries} at port {port}, priority {priority}: {what}{same}")
}

pub(super) fn in_json<const N: usize>(fabric: &Fabric<N>) -> Json {
    json::list(fabric.ties().iter().map(|tie| {
        let header = tie.header.as_ref();
        Json::Object(vec![
            ("entries", json::numbers(&tie.entries)),
            ("in_port", json::number(tie.in_port)),
            ("priority", json::number(tie.priority)),
            ("same", Json::Truth(tie.same)),
            ("header", header.map_or(Json::Null, json::header)),
        ])
    }))
}
