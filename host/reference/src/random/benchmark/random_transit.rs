//! Switches with random entries, all linked with each other.

use super::Benchmark;
use crate::examples::{edge, entry, link, tp_dst};
use crate::fabric::{Entry, Fabric};
use crate::random::parts::{address, both, field_rewrite, prefix_of};
use crate::random::Rng;
use crate::set::Set;

const SEED: u64 = 32;
const SWITCHES: u16 = 5;

/// 500 random entries, 20 at each in-port.
pub fn random_transit() -> Benchmark {
    random_transit_of(20, "random transit")
}

/// Random entries, so many at each in-port of five switches, each of which has an edge
/// and a link to every other; all of one group. Some entries drop and some rewrite.
pub(super) fn random_transit_of(at_in_port: usize, name: &'static str) -> Benchmark {
    let rng = &mut Rng::new(SEED);
    let mut fabric = Fabric::default();
    for switch in 0..SWITCHES {
        let others = (0..SWITCHES).filter(|&other| other != switch);
        let mut ports = vec![edge_port(switch)];
        ports.extend(others.clone().map(|other| link_port(switch, other)));
        fabric.edges.push(edge(1, ports[0]));
        fabric
            .links
            .extend(others.map(|other| link(link_port(switch, other), link_port(other, switch))));
        add_entries(rng, &mut fabric, &ports, at_in_port);
    }
    rng.shuffle(&mut fabric.entries);
    Benchmark::all_wild(name, fabric, edge_port(0))
}

/// Those of a switch with these ports.
fn add_entries(rng: &mut Rng, fabric: &mut Fabric, ports: &[u16], at_in_port: usize) {
    for &in_port in ports {
        fabric
            .entries
            .extend((0..at_in_port).map(|_| random_entry(rng, in_port, ports)));
    }
}

fn edge_port(switch: u16) -> u16 {
    1 + switch
}

fn link_port(switch: u16, other: u16) -> u16 {
    100 + switch * SWITCHES + other
}

/// Mostly, a longer prefix has a higher priority.
fn random_entry(rng: &mut Rng, in_port: u16, ports: &[u16]) -> Entry {
    let any = Set::ALL_WILD;
    let length = rng.one_of([8, 16, 24, 24]);
    let to = prefix_of(1, address(rng.below(4), rng.below(4)), length);
    let service = rng.one_of([any, any, any, tp_dst(22), tp_dst(80), tp_dst(81)]);
    let sent_on = *rng.pick(ports).unwrap_or(&0);
    let drops = sent_on == in_port || rng.once_in(5);
    let priority = length as u16 + rng.below(12) as u16;
    Entry {
        matching: both(to, service),
        rewrite: field_rewrite(rng),
        ..entry(priority, in_port, if drops { 0 } else { sent_on })
    }
}
