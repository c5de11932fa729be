//! A fabric as text.

use std::fmt::Write;

use crate::action::Transfer;
use crate::fabric::Fabric;
use crate::header::HeaderSet;
use crate::names::Names;
use crate::openflow::OpenFlow;
use crate::record::Entry;
use crate::version::Version;

use super::choices::{OPENFLOW, VERSION};

/// The same as [`show`], and a line for each name.
pub fn show_named<const N: usize>(fabric: &Fabric<N>, names: &Names) -> String {
    format!("{}{names}", show(fabric))
}

/// A line for each edge, link and entry, and before them one for a version that
/// isn't 1 and one for an OpenFlow that isn't 1.0; packing it gives the fabric's
/// file.
pub fn show<const N: usize>(fabric: &Fabric<N>) -> String {
    let (edges, links, entries) = (&fabric.edges, &fabric.links, &fabric.entries);
    let mut text = format!(
        "# {}, {}, {}\n",
        count(edges.len(), "edge", "edges"),
        count(links.len(), "link", "links"),
        count(entries.len(), "entry", "entries"),
    );
    let version = Version::of::<N>();
    if version != Version::default() {
        let _ = writeln!(text, "{VERSION} {}", version.name());
    }
    if fabric.openflow != OpenFlow::default() {
        let _ = writeln!(text, "{OPENFLOW} {}", fabric.openflow.name());
    }
    for edge in edges {
        let (port, group, admitted) = (edge.port, edge.group, edge.admitted);
        let _ = writeln!(text, "edge {port} group {group} admits {admitted}");
    }
    for link in links {
        let _ = writeln!(text, "link {} -> {}", link.from, link.to);
    }
    for (number, entry) in entries.iter().enumerate() {
        let _ = writeln!(text, "{}  # {number}", entry_line(entry));
    }
    text
}

fn entry_line<const N: usize>(entry: &Entry<N>) -> String {
    let out = match entry.out_port {
        0 => "drop".into(),
        port => port.to_string(),
    };
    let mut line = format!(
        "entry {} -> {out} priority {} match {}",
        entry.in_port, entry.priority, entry.matching
    );
    if let Some(action) = action(entry) {
        let _ = write!(line, " {action}");
    }
    line
}

/// What an entry does to a header, as its line says it: `swap set tp_dst=80`.
/// None if it leaves every header as it is.
pub(crate) fn action<const N: usize>(entry: &Entry<N>) -> Option<String> {
    let set = match entry.rewrite == HeaderSet::ALL_WILD {
        true => None,
        false => Some(format!("set {}", entry.rewrite)),
    };
    match (entry.transfer, set) {
        (Transfer::None, set) => set,
        (transfer, None) => Some(transfer.name().into()),
        (transfer, Some(set)) => Some(format!("{} {set}", transfer.name())),
    }
}

fn count(number: usize, one: &str, many: &str) -> String {
    format!("{number} {}", if number == 1 { one } else { many })
}
