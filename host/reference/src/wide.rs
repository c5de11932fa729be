//! Version 2's names and calls, and version 1's fabrics, queries and answers in
//! version 2: the further words are wild, not rewritten, or 0.

use crate::bits::{Bits, Wide};
use crate::brute::{finds, Find};
use crate::calls;

pub type Set = crate::set::Set<Wide>;
pub type Rewrite = crate::set::Rewrite<Wide>;
pub type Edge = crate::fabric::Edge<Wide>;
pub type Entry = crate::fabric::Entry<Wide>;
pub type Fabric = crate::fabric::Fabric<Wide>;
pub type Query = calls::Query<[u32; 8]>;

/// Version 2's verdict.
pub fn verdict(file: &[u8], area: &mut [u8], query: &Query) -> u64 {
    calls::verdict(file, area, query)
}

/// Version 2's list.
pub fn list(file: &[u8], area: &mut [u8], query: &Query) -> u64 {
    calls::list(file, area, query)
}

/// Version 2's run.
pub fn run(file: &[u8], area: &mut [u8], query: &Query) -> u64 {
    calls::run(file, area, query)
}

/// The same set, whatever the further words are.
pub fn widened_set(set: crate::Set) -> Set {
    set.map(|old| Wide::NONE.with_old_words(old))
}

fn widened_edge(edge: &crate::Edge) -> Edge {
    Edge {
        admitted: widened_set(edge.admitted),
        ..Edge::open(edge.group, edge.port)
    }
}

fn widened_entry(entry: &crate::Entry) -> Entry {
    Entry {
        matching: widened_set(entry.matching),
        transfer: entry.transfer,
        rewrite: Rewrite::to(widened_set(entry.rewrite.written())),
        ..Entry::plain(entry.priority, entry.in_port, entry.out_port)
    }
}

/// The same fabric; 400 entries are the most that are accepted.
pub fn widened(fabric: &crate::Fabric) -> Fabric {
    Fabric {
        openflow: fabric.openflow,
        edges: fabric.edges.iter().map(widened_edge).collect(),
        links: fabric.links.clone(),
        entries: fabric.entries.iter().map(widened_entry).collect(),
    }
}

/// The same query of a verdict or list.
pub fn widened_query(query: &crate::Query) -> Query {
    let wide = Query::wild(query.port, query.limit, query.budget);
    wide.about(widened_set(query.asked()))
}

/// The same query of a run: it cares for the further words too, which are 0.
pub fn widened_packet(query: &crate::Query) -> Query {
    let mut asked = widened_set(query.asked());
    asked.care.ethernet = !Wide::ZERO_BITS.ethernet;
    widened_query(query).about(asked)
}

/// The words of the same verdict or run.
pub fn widened_answer(words: &[u32]) -> Vec<u32> {
    let (head, entries) = words.split_at(8);
    [head, &[0; 4], entries].concat()
}

/// The words of the same list; none if it is no list of finds.
pub fn widened_list(words: &[u32]) -> Option<Vec<u32>> {
    let wide = |find: Find| Find {
        port: find.port,
        entries: find.entries,
        set: widened_set(find.set),
    };
    let words = finds(words)?.into_iter().map(|find| wide(find).words());
    Some(words.flatten().collect())
}
