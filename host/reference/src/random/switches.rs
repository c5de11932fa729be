//! Switches with many ports and links between them.

use super::parts::{address, both, field_rewrite, prefix_of, some_ports, tidy};
use super::source::Rng;
use super::{ethernet, finish};
use crate::bits::Bits;
use crate::fabric::{Edge, Entry, Fabric, Link};
use crate::set::Set;

/// A few switches of many ports, linked both ways, edges at the rim, prefix
/// routes and rewrites at every in-port.
pub fn switches<B: Bits>(rng: &mut Rng<B>) -> Fabric<B> {
    let number = rng.between(2, 5);
    let width = rng.between(4, 8);
    let ports = some_ports(rng, number * width);
    let mut fabric = Fabric::default();
    let taken = add_links(rng, &mut fabric, &ports, width);
    for (switch, own) in ports.chunks(width).enumerate() {
        for (place, &port) in own.iter().enumerate().skip(taken[switch]) {
            let address = address(switch, place);
            fabric.edges.push(Edge {
                group: rng.between(1, 3) as u16,
                port,
                admitted: prefix_of(0, address, rng.one_of([0, 16, 24])),
            });
        }
        for &in_port in own {
            add_routes(rng, &mut fabric, own, in_port, number);
        }
    }
    tidy(&mut fabric);
    rng.shuffle(&mut fabric.entries);
    ethernet::scatter(rng, &mut fabric);
    finish(rng, &mut fabric);
    fabric
}

/// Links both ways between the switches, each of which has this many ports;
/// how many of its ports, the first ones, are taken by links.
fn add_links<B: Bits>(
    rng: &mut Rng<B>,
    fabric: &mut Fabric<B>,
    ports: &[u16],
    width: usize,
) -> Vec<usize> {
    let number = ports.len() / width;
    let mut taken = vec![0; number];
    for one in 0..number {
        for other in 0..one {
            let linked = other + 1 == one || rng.once_in(2);
            if linked && taken[one] + 1 < width && taken[other] + 1 < width {
                let a = ports[one * width + taken[one]];
                let b = ports[other * width + taken[other]];
                fabric.links.push(Link { from: a, to: b });
                fabric.links.push(Link { from: b, to: a });
                taken[one] += 1;
                taken[other] += 1;
            }
        }
    }
    taken
}

/// Routes of one in-port to its switch's other ports.
fn add_routes<B: Bits>(
    rng: &mut Rng<B>,
    fabric: &mut Fabric<B>,
    own: &[u16],
    in_port: u16,
    switches: usize,
) {
    let others = own.iter().copied().filter(|&port| port != in_port);
    let others: Vec<u16> = others.collect();
    for _ in 0..rng.between(1, 6) {
        let length = rng.one_of([0, 8, 16, 24]);
        let to = address(rng.below(switches), rng.below(own.len()));
        let out_port = match rng.once_in(6) {
            true => 0,
            false => *rng.pick(&others).unwrap_or(&0),
        };
        let priority = length as u16 + rng.one_of([0, 8]);
        fabric.entries.push(Entry {
            matching: route(rng, prefix_of(1, to, length)),
            rewrite: field_rewrite(rng),
            ..Entry::plain(priority, in_port, out_port)
        });
    }
}

/// Some routes are for one tp_dst, one dl_vlan or one switch's packets alone.
fn route<B: Bits>(rng: &mut Rng<B>, prefix: Set<B>) -> Set<B> {
    let alone = match rng.below(8) {
        0 => Set::of_word(2, 0xffff, rng.one_of([22, 80, 81])),
        1 => Set::of_word(3, 0xffff_0000, rng.one_of([1, 2]) << 16),
        2 => Set::of_word(0, 0xffff_0000, address(rng.below(3), 0)),
        _ => Set::ALL_WILD,
    };
    both(prefix, alone)
}
