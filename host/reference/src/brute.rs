//! A naive check: every header over a few bits, at every edge port, forwarded
//! one by one under every choice among equals, against the words of a list, a
//! verdict or a run. It takes only the plain records from the rest, and its
//! forwarding is that of `ways`. Any implementation's words can be checked, and
//! `many` does so on many random fabrics.
//!
//! It is for fabrics and queries that care for and rewrite only these bits, and
//! copy and swap them among themselves; on all others headers are then alike.

mod ethernet;
mod facts;
mod many;
mod tally;

pub use many::{Ask, Checked, BUDGET, MOST_WAYS};
pub use tally::{Fact, Tally};

use std::collections::{HashMap, HashSet};

use crate::bits::Bits;
use crate::calls::{answer_words, Query};
use crate::fabric::Fabric;
use crate::file::{push_set, set_of};
use crate::set::{Header, Set};
use crate::ways::{holds, Packet, Way};

/// An edge port and a header.
type Pair<B> = (u16, B);

/// Packets, each with its ends under every choice.
pub type Ends<'f, B = Header> = Vec<(Packet<'f, B>, Vec<Way<B>>)>;

/// The pairs that arrive under some choice, or are lost if the query is of those,
/// with the entries of each way that does.
pub type Arrivals<B = Header> = HashMap<Pair<B>, Vec<Vec<u32>>>;

/// All headers of version 1 over these bits, 0 elsewhere; bit 0 is word 3 bit 0.
pub fn headers(bits: &[u32]) -> Vec<Header> {
    headers_over(bits)
}

/// The same of either version; bit 0 is the last word's.
pub fn headers_over<B: Bits>(bits: &[u32]) -> Vec<B> {
    bits.iter().fold(vec![B::NONE], |headers, &bit| {
        let with = headers.iter().map(|&header| header | B::bit(bit));
        headers.iter().copied().chain(with).collect()
    })
}

/// The ends of all packets over these bits, from every edge port; none if
/// there are more than `most` in all.
pub fn ends<'f, B: Bits>(
    fabric: &'f Fabric<B>,
    bits: &[u32],
    limit: u32,
    most: usize,
) -> Option<Ends<'f, B>> {
    let mut left = most;
    let mut all = Ends::new();
    for header in headers_over(bits) {
        for edge in &fabric.edges {
            let packet = Packet {
                fabric,
                start: edge.port,
                header,
                limit,
            };
            let ends = packet.ends(left)?;
            left -= ends.len();
            all.push((packet, ends));
        }
    }
    Some(all)
}

/// "A pair of edge port and header arrives, foreign or not, if a packet with
/// that header, started at that port, leaves by the forwarding rule at the
/// target within the limit's hops, with a header in the asked set." Here: if
/// it does so under some choice. With target 0 they are "the packets lost, under
/// some choice".
pub fn arrivals<B: Bits>(ends: &Ends<B>, query: &Query<B::Words>) -> Arrivals<B> {
    let mut arrivals = Arrivals::new();
    for (packet, ends) in ends {
        let arriving = ends.iter().filter(|way| way.arrives(query));
        let ways: Vec<_> = arriving.map(|way| way.entries.clone()).collect();
        if !ways.is_empty() {
            arrivals.insert((packet.start, packet.header), ways);
        }
    }
    arrivals
}

/// "A packet is foreign if its edge port is in another group than the target,
/// or its header is outside that port's admitted set."
fn foreign<B: Bits>(fabric: &Fabric<B>, pair: Pair<B>, target: u32) -> bool {
    let edges = &fabric.edges;
    let at = |port| edges.iter().find(|edge| u32::from(edge.port) == port);
    match (at(u32::from(pair.0)), at(target)) {
        (Some(edge), Some(target)) => edge.group != target.group || !holds(&edge.admitted, pair.1),
        _ => false,
    }
}

/// Checks a list's words: each way of an arriving pair stands in exactly one
/// find, and nothing else stands in one.
pub fn check_list<B: Bits>(
    bits: &[u32],
    arrivals: &Arrivals<B>,
    words: &[u32],
) -> Result<(), String> {
    let all_bits = bits.iter().fold(B::NONE, |all, &bit| all | B::bit(bit));
    let mut found = HashSet::new();
    for Find { port, entries, set } in finds_in::<B>(words).ok_or("no list of finds")? {
        if !(set.care & !all_bits | set.value & !set.care).is_none() {
            return Err(format!("find at {port}: {set:x?} has other bits"));
        }
        let mut headers = headers_over(bits);
        headers.retain(|&header| holds(&set, header));
        for pair in headers.into_iter().map(|header| (port, header)) {
            let ways = arrivals.get(&pair);
            if !ways.is_some_and(|ways| ways.contains(&entries)) {
                return Err(format!("{pair:x?}: found {entries:?}, arrives by {ways:?}"));
            }
            if !found.insert((pair, entries.clone())) {
                return Err(format!("{pair:x?} by {entries:?} stands in two finds"));
            }
        }
    }
    let mut each = arrivals
        .iter()
        .flat_map(|(pair, ways)| ways.iter().map(|way| (*pair, way.clone())));
    match each.find(|way| !found.contains(way)) {
        Some(way) => Err(format!("{way:x?} arrives and stands in no find")),
        None => Ok(()),
    }
}

/// A find of a list.
#[derive(Clone, Debug, PartialEq, Eq)]
pub struct Find<B = Header> {
    pub port: u16,
    pub entries: Vec<u32>,
    pub set: Set<B>,
}

impl<B: Bits> Find<B> {
    /// As a list has it.
    pub fn words(&self) -> Vec<u32> {
        let hops = self.entries.len() as u32;
        let mut words = vec![6 << 28 | hops << 12 | u32::from(self.port)];
        words.extend(self.entries.iter().map(|entry| 7 << 28 | entry));
        push_set(&mut words, &self.set);
        words
    }
}

/// The finds in the words of a version 1 list; none if these are no finds.
pub fn finds(words: &[u32]) -> Option<Vec<Find>> {
    finds_in(words)
}

/// The same of either version.
pub fn finds_in<B: Bits>(words: &[u32]) -> Option<Vec<Find<B>>> {
    let mut finds = Vec::new();
    let mut rest = words;
    while let Some((&first, after)) = rest.split_first() {
        let hops = (first >> 12 & 0xffff) as usize;
        let (entries, after) = after.split_at_checked(hops)?;
        let (set, after) = after.split_at_checked(2 * B::WORDS)?;
        let kinds_right = first >> 28 == 6 && entries.iter().all(|word| word >> 28 == 7);
        finds.push(kinds_right.then_some(Find {
            port: (first & 0xfff) as u16,
            entries: entries.iter().map(|word| word & 0x0fff_ffff).collect(),
            set: set_of(set),
        })?);
        rest = after;
    }
    Some(finds)
}

/// Checks a verdict's words: isolated if and only if no foreign packet arrives
/// under any choice; else the packet is foreign and arrives by that way.
pub fn check_verdict<B: Bits>(
    fabric: &Fabric<B>,
    arrivals: &Arrivals<B>,
    query: &Query<B::Words>,
    words: &[u32],
) -> Result<(), String> {
    if words.len() != answer_words::<B>() {
        return Err(format!("{} words", words.len()));
    }
    let (port, hops) = (words[2], words[3]);
    let (header, entries) = words[4..].split_at(B::WORDS);
    let mut pairs = arrivals.keys();
    let any = pairs.find(|pair| foreign(fabric, **pair, query.port));
    let right = match (words[0], any) {
        (0, None) => words[2..].iter().all(|&word| word == 0),
        (1, Some(_)) => {
            let port = u16::try_from(port).map_err(|_| "no port")?;
            let pair = (port, B::from_slice(header));
            let (used, unused) = entries
                .split_at_checked(hops as usize)
                .ok_or("more hops than entries")?;
            let ways = arrivals.get(&pair);
            foreign(fabric, pair, query.port)
                && ways.is_some_and(|ways| ways.iter().any(|way| way == used))
                && unused.iter().all(|&word| word == 0)
        }
        _ => false,
    };
    match right {
        true => Ok(()),
        false => Err(format!("{words:x?}, foreign packet {any:x?}")),
    }
}

/// Checks a run's words: they are its only end's, or say where its ways part.
pub fn check_run<B: Bits>(
    packet: &Packet<B>,
    ends: &[Way<B>],
    words: &[u32],
) -> Result<(), String> {
    let expected = packet.run_by(ends).and_then(|way| way.words());
    match expected.is_some_and(|expected| expected == words) {
        true => Ok(()),
        false => Err(format!("{packet:x?}: {words:x?}, ends {ends:x?}")),
    }
}
