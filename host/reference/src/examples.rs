//! Document 01's fabric F, and other fabrics and queries made by hand: what
//! tests here and in the folder above both ask about.

mod equals;
mod ethernet;
mod misses;
mod transfers;

pub use equals::{alike, equals_behind_a_link, equals_below, leak_by_choice, ring_of_equals};
pub use ethernet::{
    denied_across_words, from_host, no_arp, one_host_admitted, one_pcp_taken, routed, to_host,
    wide_f, wide_fabric, wide_file_of, wide_record, wide_reply,
};
pub use misses::{
    a_link_end_between_edges, lost_after_two_hops, lost_at_once, lost_by_choice, odd_tp_dst,
    under_1_3,
};
pub use transfers::{
    equals_after_a_copy, nw_dst, nw_src, one_reply, replies_behind_a_link, swapped_and_dropped,
};

use crate::calls::Query;
use crate::fabric::{Edge, Entry, Fabric, Link, OpenFlow};
use crate::file::to_le_bytes;
use crate::set::{from_words, Rewrite, Set};

/// All wild.
pub fn wild_query(port: u32, limit: u32, budget: u32) -> Query {
    Query::wild(port, limit, budget)
}

pub fn run_query(port: u32, limit: u32, header: [u32; 4]) -> Query {
    Query::packet(port, limit, from_words(header))
}

/// Document 01's fabric F, as its 56 words are printed.
pub fn fabric_f() -> Vec<u8> {
    let mut words = vec![0x10010038];
    words.push(0x20007001);
    words.extend([0; 8]);
    words.push(0x20009002);
    words.extend([0; 8]);
    words.extend([0x40014001, 0]);
    words.extend([0, 0, 3, 0]);
    words.extend([0, 0, 1, 0]);
    words.extend([0; 8]);
    words.extend([0x4000a001, 2]);
    words.extend([0, 0xffffffff, 0, 0]);
    words.extend([0, 0x0a000002, 0, 0]);
    words.extend([0; 8]);
    words.push(0x50000000);
    to_le_bytes(&words)
}

/// A file of these words after a right start.
pub fn file_of(records: &[u32]) -> Vec<u8> {
    let mut words = vec![0x10010000 + records.len() as u32 + 1];
    words.extend(records);
    to_le_bytes(&words)
}

/// An edge or entry record with 0 in its further words.
pub fn record(first: u32) -> Vec<u32> {
    let mut record = vec![first];
    record.resize(if first >> 28 == 2 { 9 } else { 18 }, 0);
    record
}

/// An edge that admits every header.
pub fn edge(group: u16, port: u16) -> Edge {
    Edge::open(group, port)
}

pub fn link(from: u16, to: u16) -> Link {
    Link { from, to }
}

/// An entry with an all-wild match that leaves headers as they are.
pub fn entry(priority: u16, in_port: u16, out_port: u16) -> Entry {
    Entry::plain(priority, in_port, out_port)
}

pub fn fabric(edges: &[Edge], links: &[Link], entries: &[Entry]) -> Fabric {
    Fabric {
        openflow: OpenFlow::V1_0,
        edges: edges.to_vec(),
        links: links.to_vec(),
        entries: entries.to_vec(),
    }
}

/// The headers with this tp_dst.
pub fn tp_dst(port: u32) -> Set {
    Set {
        care: 0xffff << 32,
        value: u128::from(port) << 32,
    }
}

/// The rewrite of tp_dst to this.
pub fn to_tp_dst(port: u32) -> Rewrite {
    Rewrite::to(tp_dst(port))
}

/// Two edges, links and rewrites: every kind of record, and a way of three hops
/// from 1 to 2.
pub fn linked() -> Fabric {
    let mut entries = [
        entry(7, 1, 10),
        entry(9, 11, 0),
        entry(5, 11, 12),
        entry(5, 13, 2),
        entry(5, 2, 10),
    ];
    entries[0].rewrite = to_tp_dst(5);
    entries[1].matching = tp_dst(22);
    entries[3].matching = tp_dst(5);
    let mut edges = [edge(1, 1), edge(1, 2)];
    edges[0].admitted = tp_dst(80);
    fabric(&edges, &[link(10, 11), link(12, 13)], &entries)
}

/// As many finds at port 1 of one hop, ten words each, and of two hops, eleven
/// words each; up to 1,638 and 117 of them.
pub fn many_finds(near: u32, far: u32) -> Fabric {
    let mut edges = vec![edge(1, 1)];
    let mut entries = vec![entry(1, 51, 1)];
    for number in 0..14 {
        let here = near.saturating_sub(number * 117).min(117);
        let in_port = 100 + number as u16;
        edges.push(edge(2, in_port));
        entries.extend(finds(here, in_port, 1));
    }
    edges.push(edge(2, 200));
    entries.extend(finds(far, 200, 50));
    fabric(&edges, &[link(50, 51)], &entries)
}

/// An allow under a deny of as many bits: a find for each of them.
fn finds(number: u32, in_port: u16, out_port: u16) -> [Entry; 2] {
    let mut deny = entry(2, in_port, 0);
    deny.matching = Set {
        care: (1 << number) - 1,
        value: 0,
    };
    [deny, entry(1, in_port, out_port)]
}
