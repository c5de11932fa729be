//! Small fabrics, whose sets and rewrites are over a few bits, so that every
//! header over these can be forwarded. With a bit of nw_src they have the same
//! bit of nw_dst, so that copies and swaps stay among them.

use super::parts::{in_port, out_port, rewrite_over, set_over, some_ports, spread_bits, tidy};
use super::source::Rng;
use super::{finish, misses, transfers};
use crate::bits::Bits;
use crate::fabric::{Edge, Entry, Fabric, Link};
use crate::set::{Header, Set};

/// A fabric that cares for and rewrites only these bits.
#[derive(Clone, Debug)]
pub struct Small<B = Header> {
    pub fabric: Fabric<B>,
    pub bits: Vec<u32>,
}

/// A handful of records, at times none.
pub fn tiny<B: Bits>(rng: &mut Rng<B>) -> Small<B> {
    let shape = Shape {
        edges: rng.between(0, 3),
        links: rng.between(0, 2),
        inner: 4,
        entries: rng.between(0, 5),
        priorities: 3,
        bits: 4,
        cared: 4,
        inward: 3,
    };
    finished(rng, &shape)
}

/// A few edges, links and entries over some bits.
pub fn small<B: Bits>(rng: &mut Rng<B>) -> Small<B> {
    let shape = Shape {
        edges: rng.between(2, 4),
        links: rng.between(1, 5),
        inner: rng.between(5, 8),
        entries: rng.between(4, 16),
        priorities: 4,
        bits: rng.between(4, 8),
        cared: 4,
        inward: 8,
    };
    finished(rng, &shape)
}

/// Equal priorities, and matches that meet: several entries may take a packet.
pub fn ties<B: Bits>(rng: &mut Rng<B>) -> Small<B> {
    let shape = Shape {
        edges: rng.between(2, 3),
        links: rng.between(1, 3),
        inner: 4,
        entries: rng.between(6, 12),
        priorities: rng.between(1, 3),
        bits: rng.between(4, 6),
        cared: 3,
        inward: 8,
    };
    let mut made = shaped(rng, &shape);
    transfers::scatter(rng, &mut made.fabric);
    misses::choose(rng, &mut made.fabric);
    made
}

/// Many in-ports that are neither an edge nor a link's end.
pub fn dead_ends<B: Bits>(rng: &mut Rng<B>) -> Small<B> {
    let shape = Shape {
        edges: rng.between(2, 3),
        links: rng.between(1, 3),
        inner: 10,
        entries: rng.between(8, 20),
        priorities: 4,
        bits: rng.between(4, 7),
        cared: 4,
        inward: 2,
    };
    finished(rng, &shape)
}

/// What `shaped` makes.
struct Shape {
    edges: usize,
    links: usize,
    /// Ports that are no edges, for the links.
    inner: usize,
    entries: usize,
    /// How many different priorities, from 1 to 5.
    priorities: usize,
    /// How many bits the sets care for and the rewrites write.
    bits: usize,
    /// How many of them a match cares for at most.
    cared: usize,
    /// Once in this many, an entry's in-port is any port at all; else a packet
    /// can come in there.
    inward: usize,
}

/// Some with ties on purpose, some with none.
fn finished<B: Bits>(rng: &mut Rng<B>, shape: &Shape) -> Small<B> {
    let mut made = shaped(rng, shape);
    finish(rng, &mut made.fabric);
    made
}

fn shaped<B: Bits>(rng: &mut Rng<B>, shape: &Shape) -> Small<B> {
    let bits = spread_bits(rng, shape.bits);
    let ports = some_ports(rng, shape.edges + shape.inner);
    let (edge_ports, inner) = ports.split_at(shape.edges);
    let mut fabric = Fabric {
        edges: edge_ports
            .iter()
            .map(|&port| random_edge(rng, port, &bits))
            .collect(),
        links: random_links(rng, inner, shape.links),
        ..Fabric::default()
    };
    tidy(&mut fabric);
    let step = rng.one_of([1, 0x1000, 0x3fff]);
    let lowest = rng.one_of([0, 7, 0xffff - (shape.priorities - 1) * step]);
    for _ in 0..shape.entries {
        let in_port = in_port(rng, &fabric, &ports, shape.inward);
        let out_port = out_port(rng, &fabric, &ports, in_port);
        let priority = (lowest + rng.below(shape.priorities) * step) as u16;
        fabric.entries.push(Entry {
            matching: set_over(rng, &bits, shape.cared),
            rewrite: rewrite_over(rng, &bits, 3),
            ..Entry::plain(priority, in_port, out_port)
        });
    }
    Small { fabric, bits }
}

/// A ring of 2 to 6 switches, where packets that are rewritten on the way leave
/// after many hops.
pub fn small_ring<B: Bits>(rng: &mut Rng<B>) -> Small<B> {
    let number = rng.between(2, 6);
    let bits_used = rng.between(5, 7);
    let bits = spread_bits(rng, bits_used);
    let ports = some_ports(rng, number * 3);
    let mut fabric = Fabric::default();
    for (switch, own) in ports.chunks(3).enumerate() {
        let (edge, ring_in, ring_out) = (own[0], own[1], own[2]);
        let next_in = ports[(switch + 1) % number * 3 + 1];
        fabric.edges.push(random_edge(rng, edge, &bits));
        fabric.links.push(Link {
            from: ring_out,
            to: next_in,
        });
        for in_port in [edge, ring_in] {
            for priority in 0..rng.between(2, 5) as u16 {
                let entry = ring_entry(rng, &bits, [in_port, edge, ring_out], priority);
                fabric.entries.push(entry);
            }
        }
    }
    tidy(&mut fabric);
    rng.shuffle(&mut fabric.entries);
    finish(rng, &mut fabric);
    Small { fabric, bits }
}

/// The same with gaps: of the entries that take whatever comes, one in two takes
/// only some of it, so that packets are lost after many hops.
pub fn leaky_ring<B: Bits>(rng: &mut Rng<B>) -> Small<B> {
    let mut made = small_ring(rng);
    for entry in &mut made.fabric.entries {
        if entry.matching == Set::ALL_WILD && rng.once_in(2) {
            entry.matching = set_over(rng, &made.bits, 2);
        }
    }
    made
}

/// With priority 0 all go on round the ring; above it, some leave or are dropped.
fn ring_entry<B: Bits>(rng: &mut Rng<B>, bits: &[u32], ports: [u16; 3], priority: u16) -> Entry<B> {
    let [in_port, edge, ring_out] = ports;
    let anywhere = rng.one_of([0, edge, ring_out, ring_out]);
    let onward = priority == 0 || anywhere == in_port;
    let most_cared = if priority == 0 { 0 } else { 4 };
    let out_port = if onward { ring_out } else { anywhere };
    Entry {
        matching: set_over(rng, bits, most_cared),
        rewrite: rewrite_over(rng, bits, 2),
        ..Entry::plain(priority.min(3), in_port, out_port)
    }
}

/// Groups differ in their upper bits alone.
pub(super) fn random_edge<B: Bits>(rng: &mut Rng<B>, port: u16, bits: &[u32]) -> Edge<B> {
    Edge {
        group: rng.one_of([1, 1, 0x1001, 0x8001]),
        port,
        admitted: set_over(rng, bits, 2),
    }
}

/// Up to this many links between these ports.
fn random_links<B: Bits>(rng: &mut Rng<B>, ports: &[u16], number: usize) -> Vec<Link> {
    let (mut from, mut to) = (ports.to_vec(), ports.to_vec());
    rng.shuffle(&mut from);
    rng.shuffle(&mut to);
    let pairs = from.into_iter().zip(to).filter(|(from, to)| from != to);
    pairs
        .take(number)
        .map(|(from, to)| Link { from, to })
        .collect()
}
