//! A fabric as plain records: what a fabric file of either version says.

use crate::bits::Bits;
use crate::set::{Header, Rewrite, Set};
use crate::transfer::Transfer;

/// Ports are 1 to 4,095, so a table by port has this length.
pub const PORTS: usize = 4096;
pub const MOST_EDGES: usize = 64;
pub const MOST_LINKS: usize = 256;
pub const MOST_ENTRIES_PER_IN_PORT: usize = 64;

/// "The headers that this port's group may send there, its admitted set."
#[derive(Clone, Copy, Debug, PartialEq, Eq)]
pub struct Edge<B = Header> {
    pub group: u16,
    pub port: u16,
    pub admitted: Set<B>,
}

impl<B: Bits> Edge<B> {
    /// One that admits every header.
    pub fn open(group: u16, port: u16) -> Edge<B> {
        Edge {
            group,
            port,
            admitted: Set::ALL_WILD,
        }
    }
}

/// "One way."
#[derive(Clone, Copy, Debug, PartialEq, Eq)]
pub struct Link {
    pub from: u16,
    pub to: u16,
}

/// An entry; its number is its index in `Fabric::entries`. Out-port 0 drops.
#[derive(Clone, Copy, Debug, PartialEq, Eq)]
pub struct Entry<B = Header> {
    pub priority: u16,
    pub in_port: u16,
    pub out_port: u16,
    pub matching: Set<B>,
    pub transfer: Transfer,
    pub rewrite: Rewrite<B>,
}

impl<B: Bits> Entry<B> {
    /// One with an all-wild match that leaves headers as they are.
    pub fn plain(priority: u16, in_port: u16, out_port: u16) -> Entry<B> {
        Entry {
            priority,
            in_port,
            out_port,
            matching: Set::ALL_WILD,
            transfer: Transfer::None,
            rewrite: Rewrite::NONE,
        }
    }

    /// What it makes of a header: it copies or swaps "before the rewrite".
    pub fn apply(&self, header: B) -> B {
        self.rewrite.apply(self.transfer.apply(header))
    }

    /// The headers that it brings into this set. What was done last is undone
    /// first.
    pub fn undo(&self, wanted: &Set<B>) -> Option<Set<B>> {
        let before_rewrite = self.rewrite.undo(wanted)?;
        self.transfer.undo(&before_rewrite)
    }
}

/// Which OpenFlow the switches follow where no entry takes a packet: "table miss,
/// old and new".
#[derive(Clone, Copy, Debug, Default, PartialEq, Eq, Hash)]
pub enum OpenFlow {
    /// The packet is lost.
    #[default]
    V1_0 = 0,
    /// It is dropped.
    V1_3 = 1,
}

impl OpenFlow {
    pub const ALL: [OpenFlow; 2] = [OpenFlow::V1_0, OpenFlow::V1_3];
}

/// All records in file order.
#[derive(Clone, Debug, Default, PartialEq, Eq)]
pub struct Fabric<B = Header> {
    pub openflow: OpenFlow,
    pub edges: Vec<Edge<B>>,
    pub links: Vec<Link>,
    pub entries: Vec<Entry<B>>,
}

impl<B> Fabric<B> {
    /// The edge at this port, if it is an edge port.
    pub fn edge(&self, port: u32) -> Option<&Edge<B>> {
        self.edges.iter().find(|edge| u32::from(edge.port) == port)
    }

    /// The link that leads on from this out-port.
    pub fn link_from(&self, port: u16) -> Option<&Link> {
        self.links.iter().find(|link| link.from == port)
    }
}
