//! `mwishovala dot`: the fabric as a Graphviz picture.

mod switches;

use std::collections::BTreeMap;
use std::fmt::Write;

use super::arguments::Widest;
use super::inquiry::{Asked, Inquiry};
use super::judged::way;
use super::loaded::Loaded;
use super::manual::VERSION;
use super::{describe, threads, Failure, Output, DONE};
use crate::calls::verdict;
use crate::openflow::OpenFlow;
use crate::query::Query;
use crate::record::Entry;
use crate::takers::Hop;
use crate::text::action;
use crate::verdict::Verdict;
use switches::switches;

/// What a foreign packet takes, and a target that none gets to.
const MARKED: &str = "color=red fontcolor=red penwidth=3";
const SAFE: &str = "color=green fontcolor=green penwidth=3";
/// More entries than these aren't named on one arrow.
const MOST_NAMED: usize = 6;
/// A fabric file names no switches.
const GUESSED: &str = "dashed boxes are guessed: ports that entries join";

/// What is marked.
struct Marks<const N: usize> {
    target: u32,
    /// What the target is, in words, and how it is drawn.
    judged: String,
    style: &'static str,
    way: Vec<Hop<N>>,
}

pub(super) fn dot<const N: usize>(
    loaded: &Loaded<N>,
    query: Option<&Widest>,
    out: Output,
) -> Result<u8, Failure> {
    let text = match query {
        None => {
            let (file, digest) = (&loaded.name, loaded.digest);
            let openflow = match loaded.fabric.openflow {
                OpenFlow::V1_0 => String::new(),
                openflow => format!(", {openflow}"),
            };
            let said = format!("// {file}, sha256 {digest}{openflow}, by mwishovala {VERSION}\n");
            said + &draw(loaded, None)
        }
        Some(query) => {
            let query = loaded.query(query)?;
            let inquiry = Inquiry::of("dot", loaded, Asked::Target(query));
            let marks = judge(&inquiry, &query)?;
            let said = inquiry.lines().into_iter();
            let said: String = said.map(|line| format!("// {line}\n")).collect();
            said + &draw(loaded, Some(&marks))
        }
    };
    out.write_all(text.as_bytes())?;
    Ok(DONE)
}

fn judge<const N: usize>(inquiry: &Inquiry<N>, query: &Query<N>) -> Result<Marks<N>, Failure> {
    let verdict = threads::call(|| verdict(&inquiry.loaded.bytes, query))?
        .map_err(|refusal| inquiry.refused(refusal))?;
    let target = query.port;
    Ok(match verdict {
        Verdict::Isolated { .. } => Marks {
            target,
            judged: format!("isolated{}", inquiry.only()),
            style: SAFE,
            way: Vec::new(),
        },
        Verdict::Reached {
            header, entries, ..
        } => Marks {
            target,
            judged: "reached".into(),
            style: MARKED,
            way: way(&inquiry.loaded.fabric, &header, &entries)
                .map_err(|refusal| inquiry.refused(refusal))?,
        },
    })
}

/// Ports are nodes, in a box with the other ports of their switch. Links and
/// entries are arrows; those of the way are marked.
fn draw<const N: usize>(loaded: &Loaded<N>, marks: Option<&Marks<N>>) -> String {
    let switches = switches(&loaded.fabric, &loaded.names);
    let mut text = String::from("digraph fabric {\n  rankdir=LR;\n  node [shape=circle];\n");
    if switches.iter().any(|switch| switch.name.is_none()) {
        let _ = writeln!(text, "  label=\"{GUESSED}\";");
    }
    for (number, switch) in switches.iter().enumerate() {
        let _ = writeln!(text, "  subgraph cluster_{number} {{");
        let _ = match &switch.name {
            Some(name) => writeln!(text, "    label=\"{name}\";"),
            None => writeln!(text, "    label=\"\";\n    style=dashed;"),
        };
        for &port in &switch.ports {
            let _ = writeln!(text, "    {port}{};", node(loaded, marks, port));
        }
        text += "  }\n";
    }
    let way = marks.map_or(&[][..], |marks| &marks.way);
    text += &links(loaded, way);
    text += &marked(way);
    text += &others(loaded, way);
    text + "}\n"
}

fn node<const N: usize>(loaded: &Loaded<N>, marks: Option<&Marks<N>>, port: u16) -> String {
    let mut lines = vec![port.to_string()];
    lines.extend(loaded.names.of_port(port).map(String::from));
    let edge = loaded.fabric.edge(port);
    lines.extend(edge.map(|edge| format!("group {}", edge.group)));
    let shape = edge.map_or("", |_| "shape=box ");
    let mark = marks.filter(|marks| marks.target == u32::from(port));
    lines.extend(mark.map(|mark| mark.judged.clone()));
    match (lines.len(), mark) {
        (1, None) => String::new(),
        (_, None) => format!(" [{shape}label=\"{}\"]", lines.join("\\n")),
        (_, Some(mark)) => format!(" [{shape}label=\"{}\" {}]", lines.join("\\n"), mark.style),
    }
}

fn links<const N: usize>(loaded: &Loaded<N>, way: &[Hop<N>]) -> String {
    let used: Vec<u16> = way.iter().map(|hop| hop.entry.out_port).collect();
    let mut text = String::new();
    for link in &loaded.fabric.links {
        let mark = match used.contains(&link.from) {
            true => MARKED,
            false => "penwidth=2",
        };
        let _ = writeln!(text, "  {} -> {} [{mark}];", link.from, link.to);
    }
    text
}

/// The way's entries, an arrow for each hop, with the others that might have
/// taken the packet.
fn marked<const N: usize>(way: &[Hop<N>]) -> String {
    let mut text = String::new();
    for (hop, place) in way.iter().zip(1..) {
        let (in_port, out_port) = (hop.entry.in_port, hop.entry.out_port);
        let entry = named(hop.number, &hop.entry) + &describe::or(&hop.equals());
        let _ = writeln!(
            text,
            "  {in_port} -> {out_port} [label=\"hop {place}: entry {entry}\" {MARKED}];"
        );
    }
    text
}

/// The other entries, an arrow for all that have the same ports. A drop's arrow
/// goes to a point of its in-port's own.
fn others<const N: usize>(loaded: &Loaded<N>, way: &[Hop<N>]) -> String {
    let mut arrows: BTreeMap<(u16, u16), Vec<String>> = BTreeMap::new();
    for (number, entry) in loaded.fabric.numbered() {
        if way.iter().all(|hop| hop.number != number) {
            let ports = (entry.in_port, entry.out_port);
            arrows.entry(ports).or_default().push(named(number, entry));
        }
    }
    let mut text = String::new();
    for ((in_port, out_port), entries) in arrows {
        let mut label = describe::listed(entries.iter().take(MOST_NAMED));
        if entries.len() > MOST_NAMED {
            label += ", …";
        }
        let _ = match out_port {
            0 => writeln!(
                text,
                "  drop_{in_port} [shape=point];\n  \
                 {in_port} -> drop_{in_port} [label=\"{label}\" style=dotted];"
            ),
            _ => writeln!(
                text,
                "  {in_port} -> {out_port} [label=\"{label}\" style=dashed];"
            ),
        };
    }
    text
}

/// An entry's number, and what it does to a header.
fn named<const N: usize>(number: u16, entry: &Entry<N>) -> String {
    match action(entry) {
        Some(action) => format!("{number} ({action})"),
        None => number.to_string(),
    }
}
