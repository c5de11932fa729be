//! The largest file.

use super::parts::{address, field_rewrite, in_port, out_port, prefix_of, some_ports, tidy};
use super::source::Rng;
use super::{ethernet, finish};
use crate::bits::Bits;
use crate::fabric::{
    Edge, Entry, Fabric, Link, MOST_EDGES, MOST_ENTRIES_PER_IN_PORT, MOST_LINKS, PORTS,
};

/// The largest file: 64 edges, 256 links, 512 entries, 40,200 bytes; in version 2
/// 400 entries, 59,784 bytes.
pub fn largest<B: Bits>(rng: &mut Rng<B>) -> Fabric<B> {
    let ports = some_ports(rng, MOST_EDGES + MOST_LINKS + 1);
    let (edge_ports, inner) = ports.split_at(MOST_EDGES);
    let mut fabric = Fabric::default();
    for (place, &port) in edge_ports.iter().enumerate() {
        fabric.edges.push(Edge {
            group: rng.between(1, 4) as u16,
            port,
            admitted: prefix_of(0, address(0, place), 24),
        });
    }
    // Each of the inner ports leads on to the next.
    for pair in inner.windows(2) {
        fabric.links.push(Link {
            from: pair[0],
            to: pair[1],
        });
    }
    tidy(&mut fabric);
    let mut entries_at = vec![0; PORTS];
    while fabric.entries.len() < B::MOST_ENTRIES {
        let in_port = in_port(rng, &fabric, &ports, 8);
        if entries_at[usize::from(in_port)] == MOST_ENTRIES_PER_IN_PORT {
            continue;
        }
        entries_at[usize::from(in_port)] += 1;
        let out_port = out_port(rng, &fabric, &ports, in_port);
        let to = address(0, rng.below(MOST_EDGES));
        let length = rng.one_of([0, 16, 20, 24]);
        let priority = rng.below(4) as u16;
        fabric.entries.push(Entry {
            matching: prefix_of(1, to, length),
            rewrite: field_rewrite(rng),
            ..Entry::plain(priority, in_port, out_port)
        });
    }
    ethernet::scatter(rng, &mut fabric);
    finish(rng, &mut fabric);
    fabric
}
