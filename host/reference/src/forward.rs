//! Forwarding a packet: document 01, "Forwarding", with document 02's equal
//! priorities (2.3), reply entries (2.5) and table miss (2.7).

use crate::bits::Bits;
use crate::fabric::{Entry, Fabric, OpenFlow};
use crate::set::Header;

/// "Now only a strictly higher priority beats", at the same in-port. Both are
/// entry numbers.
pub fn beats<B>(fabric: &Fabric<B>, one: usize, other: usize) -> bool {
    let (a, b) = (&fabric.entries[one], &fabric.entries[other]);
    a.in_port == b.in_port && a.priority > b.priority
}

/// "Any matching entry of the highest priority may take the packet": their
/// numbers, in file order. None: a table miss.
pub fn takers<B: Bits>(fabric: &Fabric<B>, in_port: u16, header: B) -> Vec<usize> {
    let mut takers: Vec<usize> = Vec::new();
    for (number, entry) in fabric.entries.iter().enumerate() {
        if entry.in_port != in_port || !entry.matching.contains(header) {
            continue;
        }
        match takers.first() {
            Some(&taker) if beats(fabric, taker, number) => continue,
            Some(&taker) if beats(fabric, number, taker) => takers.clear(),
            _ => {}
        }
        takers.push(number);
    }
    takers
}

/// How a packet run ends, with the documents' numbers.
#[derive(Clone, Copy, Debug, PartialEq, Eq)]
pub enum Fate {
    Left = 0,
    Dropped = 1,
    Lost = 2,
    /// "The limit's hops are made and a link leads on, whatever stands there."
    Travelling = 3,
    /// "A run that meets two such entries stops with fate 4 and the in-port."
    Tied = 4,
}

/// A packet run. Hops are the length of `entries`: each entry taken makes one.
#[derive(Clone, Debug, PartialEq, Eq)]
pub struct Run<B = Header> {
    pub fate: Fate,
    /// "Left: out-port; dropped or lost: in-port; travelling: next in-port";
    /// tied: in-port.
    pub port: u16,
    /// The header then, after all that was done to it.
    pub header: B,
    /// Entries taken, in travelling order.
    pub entries: Vec<usize>,
}

/// Runs a packet from a port for at most `limit` hops, 1 to 16.
pub fn run<B: Bits>(fabric: &Fabric<B>, start: u16, header: B, limit: usize) -> Run<B> {
    run_by(Entry::apply, fabric, start, header, limit)
}

/// The same where this is what an entry makes of a header, right or wrong.
pub fn run_by<B: Bits>(
    apply: impl Fn(&Entry<B>, B) -> B,
    fabric: &Fabric<B>,
    start: u16,
    header: B,
    limit: usize,
) -> Run<B> {
    let mut at = Run {
        fate: Fate::Travelling,
        port: start,
        header,
        entries: Vec::new(),
    };
    while at.fate == Fate::Travelling && at.entries.len() < limit {
        hop(&apply, fabric, &mut at);
    }
    at
}

/// "Under 1.3 a packet no entry takes has fate 1 with its in-port and no further
/// hop. Under 1.0 it has fate 2."
fn fate_of_a_miss(openflow: OpenFlow) -> Fate {
    match openflow {
        OpenFlow::V1_0 => Fate::Lost,
        OpenFlow::V1_3 => Fate::Dropped,
    }
}

/// The next hop of a packet that travels: "It rewrites, and one hop is made." A
/// drop does all that too.
fn hop<B: Bits>(apply: impl Fn(&Entry<B>, B) -> B, fabric: &Fabric<B>, at: &mut Run<B>) {
    let takers = takers(fabric, at.port, at.header);
    let [number] = takers[..] else {
        at.fate = match takers.is_empty() {
            true => fate_of_a_miss(fabric.openflow),
            false => Fate::Tied,
        };
        return;
    };
    let entry = &fabric.entries[number];
    at.header = apply(entry, at.header);
    at.entries.push(number);
    if entry.out_port == 0 {
        at.fate = Fate::Dropped;
    } else if let Some(link) = fabric.link_from(entry.out_port) {
        at.port = link.to;
    } else {
        at.fate = Fate::Left;
        at.port = entry.out_port;
    }
}
