//! A routed campus whose cores are a ring.

use super::{deny, Benchmark};
use crate::examples::{edge, entry};
use crate::fabric::{Entry, Fabric, Link};
use crate::random::parts::{address, prefix_of};
use crate::set::Set;

const SITES: u16 = 12;
const HOSTS: u16 = 2;

/// A kind of port is numbered from here, by site.
const EDGE_UP: u16 = 100;
const DISTRIBUTION_DOWN: u16 = 200;
const DISTRIBUTION_UP: u16 = 300;
const CORE_DOWN: u16 = 400;
/// To the core before on the ring, and to the next.
const CORE_BACK: u16 = 500;
const CORE_ON: u16 = 600;

const DENY: u16 = 30;
const ROUTE: u16 = 20;
const DEFAULT: u16 = 10;

/// A routed campus of 12 sites and 288 entries, all of one group, and ways of up
/// to 16 hops.
///
/// A site has an edge switch with two edges, a distribution and a core switch.
/// What is for another site goes up by default, and from its core either way round
/// the ring, by two equals. Each core has its own quarantined host, so that parts
/// grow in number with the way.
pub fn routed_campus() -> Benchmark {
    let mut fabric = Fabric::default();
    for site in 0..SITES {
        add_links(&mut fabric, site);
        add_edge_switch(&mut fabric, site);
        add_distribution(&mut fabric, site);
        add_core(&mut fabric, site);
    }
    Benchmark::all_wild("routed campus", fabric, host_port(0, 0))
}

fn host_port(site: u16, host: u16) -> u16 {
    1 + site * HOSTS + host
}

fn add_links(fabric: &mut Fabric, site: u16) {
    let pairs = [
        (EDGE_UP + site, DISTRIBUTION_DOWN + site),
        (DISTRIBUTION_UP + site, CORE_DOWN + site),
        (CORE_ON + site, CORE_BACK + (site + 1) % SITES),
    ];
    for (one, other) in pairs {
        fabric.links.push(Link {
            from: one,
            to: other,
        });
        fabric.links.push(Link {
            from: other,
            to: one,
        });
    }
}

fn add_edge_switch(fabric: &mut Fabric, site: u16) {
    let up = EDGE_UP + site;
    for host in 0..HOSTS {
        let port = host_port(site, host);
        let other = (host + 1) % HOSTS;
        fabric.edges.push(edge(1, port));
        fabric.entries.extend([
            deny(DENY, port, quarantined(site)),
            deny(DENY, port, from_outside()),
            route(port, host_port(site, other), to_host(site, other)),
            entry(DEFAULT, port, up),
            route(up, port, to_host(site, host)),
        ]);
    }
    fabric.entries.push(deny(DENY, up, quarantined(site)));
}

/// What is for the own site and comes from below would come back for ever.
fn add_distribution(fabric: &mut Fabric, site: u16) {
    let (down, up) = (DISTRIBUTION_DOWN + site, DISTRIBUTION_UP + site);
    fabric.entries.extend([
        deny(DENY, down, to_site(site)),
        deny(DENY, down, from_outside()),
        entry(DEFAULT, down, up),
        route(up, down, to_site(site)),
        deny(DENY, up, from_outside()),
    ]);
}

fn add_core(fabric: &mut Fabric, site: u16) {
    let (down, back, on) = (CORE_DOWN + site, CORE_BACK + site, CORE_ON + site);
    fabric
        .entries
        .extend([entry(DEFAULT, down, back), entry(DEFAULT, down, on)]);
    for (from, to) in [(back, on), (on, back)] {
        fabric.entries.extend([
            deny(DENY, from, quarantined(site)),
            route(from, down, to_site(site)),
            entry(DEFAULT, from, to),
        ]);
    }
}

fn route(in_port: u16, out_port: u16, matching: Set) -> Entry {
    Entry {
        matching,
        ..entry(ROUTE, in_port, out_port)
    }
}

/// nw_dst 10.site.host.0/24
fn to_host(site: u16, host: u16) -> Set {
    prefix_of(1, address(site.into(), host.into()), 24)
}

/// nw_dst 10.site.0.0/16
fn to_site(site: u16) -> Set {
    prefix_of(1, address(site.into(), 0), 16)
}

/// nw_src 10.site.0.77
fn quarantined(site: u16) -> Set {
    prefix_of(0, address(site.into(), 0) | 77, 32)
}

/// nw_src 192.168.0.0/16
fn from_outside() -> Set {
    prefix_of(0, 0xc0a8_0000, 16)
}
