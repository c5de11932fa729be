//! Plain indexes for the back-trace, made once a call: entries by out-port and by
//! in-port, beaters by entry, what stands at an in-port.

use std::iter::successors;

use crate::bits::Bits;
use crate::fabric::{Fabric, PORTS};
use crate::forward::beats;
use crate::set::{Header, Set};

/// What stands at a port that packets come in by.
#[derive(Clone, Copy, Debug, PartialEq, Eq)]
pub enum Origin {
    /// Neither an edge nor a link's end.
    Nothing,
    /// The edge with this index.
    Edge(u16),
    /// The end of a link that comes from this port.
    Link(u16),
}

/// The indexes of one accepted fabric.
#[derive(Debug)]
pub struct Index<'f, B = Header> {
    fabric: &'f Fabric<B>,
    by_out_port: Chains,
    by_in_port: Chains,
    beaters: Vec<u16>,
    /// Entry `i` is beaten by `beaters[starts[i]..starts[i + 1]]`.
    starts: Vec<usize>,
    /// By port.
    origins: Vec<Origin>,
    matches: Vec<Set<B>>,
}

impl<'f, B: Bits> Index<'f, B> {
    pub fn new(fabric: &'f Fabric<B>) -> Index<'f, B> {
        let entries = &fabric.entries;
        let by_in_port = Chains::new(entries.iter().map(|entry| entry.in_port));
        let (beaters, starts) = beaters(fabric, &by_in_port);
        Index {
            fabric,
            by_out_port: Chains::new(entries.iter().map(|entry| entry.out_port)),
            by_in_port,
            beaters,
            starts,
            origins: origins(fabric),
            matches: entries.iter().map(|entry| entry.matching).collect(),
        }
    }

    pub fn fabric(&self) -> &'f Fabric<B> {
        self.fabric
    }

    /// The entries with this out-port, in file order.
    pub fn with_out_port(&self, port: u16) -> impl Iterator<Item = u16> + '_ {
        self.by_out_port.at(port)
    }

    /// The entries with this in-port, in file order.
    pub fn with_in_port(&self, port: u16) -> impl Iterator<Item = u16> + '_ {
        self.by_in_port.at(port)
    }

    /// The entries that beat this one, in file order.
    pub fn beaters(&self, entry: u16) -> &[u16] {
        let entry = usize::from(entry);
        &self.beaters[self.starts[entry]..self.starts[entry + 1]]
    }

    /// What stands at this port.
    pub fn origin(&self, port: u16) -> Origin {
        self.origins[usize::from(port)]
    }

    /// Where packets come in: "Edge ports and link ends are taken in rising number".
    pub fn in_ports(&self) -> Vec<u16> {
        let mut in_ports: Vec<_> = open_ports(self.fabric).map(|(port, _)| port).collect();
        in_ports.sort();
        in_ports
    }

    /// This entry's match; all of them lie close together.
    pub fn matching(&self, entry: u16) -> &Set<B> {
        &self.matches[usize::from(entry)]
    }
}

/// The entries with one port or another: by port the first of them, by entry
/// the next one with its port.
#[derive(Debug)]
struct Chains {
    first: Vec<Option<u16>>,
    next: Vec<Option<u16>>,
}

impl Chains {
    /// From the port of each entry.
    fn new(ports: impl DoubleEndedIterator<Item = u16> + ExactSizeIterator) -> Chains {
        let mut chains = Chains {
            first: vec![None; PORTS],
            next: vec![None; ports.len()],
        };
        // From the last to the first, so that each chain is in file order.
        for (number, port) in ports.enumerate().rev() {
            if let Some(first) = chains.first.get_mut(usize::from(port)) {
                chains.next[number] = first.replace(number as u16);
            }
        }
        chains
    }

    fn at(&self, port: u16) -> impl Iterator<Item = u16> + '_ {
        let first = self.first.get(usize::from(port)).copied().flatten();
        successors(first, |&entry| self.next[usize::from(entry)])
    }
}

/// All entries' beaters, and where each entry's start.
fn beaters<B>(fabric: &Fabric<B>, by_in_port: &Chains) -> (Vec<u16>, Vec<usize>) {
    let (mut beaters, mut starts) = (Vec::new(), vec![0]);
    for (number, entry) in fabric.entries.iter().enumerate() {
        for other in by_in_port.at(entry.in_port) {
            if beats(fabric, usize::from(other), number) {
                beaters.push(other);
            }
        }
        starts.push(beaters.len());
    }
    (beaters, starts)
}

/// The link ends and then the edge ports, each with what stands there.
fn open_ports<B>(fabric: &Fabric<B>) -> impl Iterator<Item = (u16, Origin)> + '_ {
    let ends = fabric.links.iter();
    let ends = ends.map(|link| (link.to, Origin::Link(link.from)));
    let edges = (0..).zip(&fabric.edges);
    let edges = edges.map(|(number, edge)| (edge.port, Origin::Edge(number)));
    ends.chain(edges)
}

/// What stands at each port.
fn origins<B>(fabric: &Fabric<B>) -> Vec<Origin> {
    let mut origins = vec![Origin::Nothing; PORTS];
    for (port, origin) in open_ports(fabric) {
        if let Some(place) = origins.get_mut(usize::from(port)) {
            *place = origin;
        }
    }
    origins
}
