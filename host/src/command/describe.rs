//! Packets and ways in words.

use super::loaded::Loaded;
use crate::action::Transfer;
use crate::field::Field;
use crate::header::{Header, HeaderSet};
use crate::record::Entry;
use crate::takers::Hop;
use crate::version::Version;

/// A line for each field.
pub(super) fn packet<const N: usize>(header: &Header<N>) -> String {
    let fields: Vec<Field> = Field::all_in(Version::of::<N>()).collect();
    let names = fields.iter().map(|field| field.name().len());
    let width = 1 + names.max().unwrap_or_default();
    let line = |field: &Field| {
        let (name, value) = (field.name(), header.in_words(*field));
        format!("  {name:<width$} {value}\n")
    };
    fields.iter().map(line).collect()
}

/// Hop by hop, each entry with its ports, match and rewrite, and which others
/// might have taken the packet. Where addresses are copied or swapped before the
/// rewrite, also what the header becomes.
pub(super) fn path<const N: usize>(loaded: &Loaded<N>, way: &[Hop<N>]) -> String {
    let hops = way.iter().zip(1..);
    hops.map(|(hop, place)| one_hop(loaded, place, hop))
        .collect()
}

fn one_hop<const N: usize>(loaded: &Loaded<N>, place: usize, hop: &Hop<N>) -> String {
    let entry = &hop.entry;
    let (in_port, out_port) = (loaded.port(entry.in_port), loaded.port(entry.out_port));
    let onward = match (entry.out_port, loaded.fabric.link_from(entry.out_port)) {
        (0, _) => "dropped".into(),
        (_, Some(link)) => {
            let to = loaded.port(link.to);
            format!("out at port {out_port}, over the link to port {to}")
        }
        (_, None) => format!("out at port {out_port}, leaving the fabric"),
    };
    let too = match others(hop) {
        Some(others) => format!("; {others}"),
        None => String::new(),
    };
    let (first, then) = match entry.transfer {
        Transfer::None => (String::new(), String::new()),
        transfer => (
            format!("    first   {transfer}\n"),
            format!("    becomes {}\n", entry.action_on(&hop.header)),
        ),
    };
    format!(
        "  hop {place}: in at port {in_port}, {onward}\n    \
         entry {}, priority {}{too}\n    \
         match   {}\n\
         {first}    \
         rewrite {}\n\
         {then}",
        hop.number,
        entry.priority,
        entry.matching,
        rewrite(entry),
    )
}

/// Who else might take a packet at this hop.
pub(super) fn others<const N: usize>(hop: &Hop<N>) -> Option<String> {
    match &hop.equals()[..] {
        [] => None,
        equals => Some(format!(
            "{} of the same priority might take it too",
            entries(equals)
        )),
    }
}

/// 'entry 7', or 'entries 4, 7 and 9'.
pub(super) fn entries(numbers: &[u16]) -> String {
    match numbers {
        [one] => format!("entry {one}"),
        _ => format!("entries {}", and(numbers)),
    }
}

/// After an entry, the others that might take the packet too: ' (or 4, 7)'.
pub(super) fn or(numbers: &[u16]) -> String {
    match numbers {
        [] => String::new(),
        _ => format!(" (or {})", listed(numbers)),
    }
}

/// '4, 7 and 9'.
pub(super) fn and(numbers: &[u16]) -> String {
    match numbers {
        [many @ .., last] if !many.is_empty() => format!("{} and {last}", listed(many)),
        _ => listed(numbers),
    }
}

pub(super) fn rewrite<const N: usize>(entry: &Entry<N>) -> String {
    match entry.rewrite == HeaderSet::ALL_WILD {
        true => "none".into(),
        false => entry.rewrite.to_string(),
    }
}

pub(super) fn hops(number: u32) -> String {
    counted(number as usize, "hop", "hops")
}

pub(super) fn units(number: u32) -> String {
    counted(number as usize, "unit", "units")
}

pub(super) fn counted(number: usize, one: &str, many: &str) -> String {
    format!("{number} {}", if number == 1 { one } else { many })
}

/// With commas between them; - if there are none.
pub(super) fn listed(items: impl IntoIterator<Item: ToString>) -> String {
    let texts: Vec<String> = items.into_iter().map(|item| item.to_string()).collect();
    match texts.is_empty() {
        true => "-".into(),
        false => texts.join(", "),
    }
}
