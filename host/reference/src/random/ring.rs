//! Rings of switches.

use super::parts::{address, field_rewrite, prefix_of, some_ports, tidy};
use super::source::Rng;
use super::{ethernet, finish};
use crate::bits::Bits;
use crate::fabric::{Edge, Entry, Fabric, Link};
use crate::set::Set;

/// A ring of 2 to 16 switches, each with an edge: the way round takes as
/// many hops. Packets for no switch go round without end.
pub fn ring<B: Bits>(rng: &mut Rng<B>) -> Fabric<B> {
    let number = rng.between(2, 16);
    let ports = some_ports(rng, number * 3);
    let mut fabric = Fabric::default();
    for (switch, own) in ports.chunks(3).enumerate() {
        let (edge, ring_in, ring_out) = (own[0], own[1], own[2]);
        let next = &ports[(switch + 1) % number * 3..];
        fabric.edges.push(Edge {
            group: rng.between(1, 2) as u16,
            port: edge,
            admitted: prefix_of(0, address(switch, 0), 16),
        });
        fabric.links.push(Link {
            from: ring_out,
            to: next[1],
        });
        let to_here = prefix_of(1, address(switch, 0), 16);
        let mut add = |in_port, out_port, priority, matching| {
            fabric.entries.push(Entry {
                matching,
                rewrite: field_rewrite(rng),
                ..Entry::plain(priority, in_port, out_port)
            });
        };
        add(ring_in, edge, 5, to_here);
        add(ring_in, ring_out, 3, Set::ALL_WILD);
        add(edge, 0, 5, to_here);
        add(edge, ring_out, 3, Set::ALL_WILD);
        if rng.once_in(3) {
            let in_port = rng.one_of([edge, ring_in]);
            let from = address(rng.below(number), 0);
            fabric.entries.push(Entry {
                matching: prefix_of(0, from, 16),
                ..Entry::plain(4, in_port, 0)
            });
        }
    }
    tidy(&mut fabric);
    rng.shuffle(&mut fabric.entries);
    ethernet::scatter(rng, &mut fabric);
    finish(rng, &mut fabric);
    fabric
}
