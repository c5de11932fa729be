//! A routed campus.

use super::{deny, rewrite, Benchmark};
use crate::examples::entry;
use crate::fabric::{Edge, Entry, Fabric, Link};
use crate::set::Set;

const BUILDINGS: u16 = 6;
pub(super) const TENANTS: u16 = 8;
pub(super) const CORES: u16 = 2;

/// The bits of nw_dst by which an edge's routes tell all buildings apart, and those
/// by which they tell even ones from odd ones.
pub(super) const EVERY_BUILDING: u32 = 0xffff_ff00;
pub(super) const EVEN_OR_ODD: u32 = 0xff01_ff00;

/// A routed campus of six buildings and 504 entries.
pub fn campus() -> Benchmark {
    let fabric = routed(BUILDINGS, EVERY_BUILDING);
    Benchmark::all_wild("campus", fabric, tenant_port(0, 0))
}

/// In each building a switch with an edge for each of eight tenants, and two
/// core switches. A tenant's edges send to each other, tagged with the tenant's
/// dl_vlan, by routes that look at these bits of nw_dst; Telnet and SMB are denied
/// where they come in, one host in the core.
pub(super) fn routed(buildings: u16, told_by: u32) -> Fabric {
    let mut fabric = Fabric::default();
    for building in 0..buildings {
        let others: Vec<u16> = (0..buildings).filter(|&other| other != building).collect();
        for tenant in 0..TENANTS {
            add_edge(&mut fabric, building, tenant);
            add_edge_routes(&mut fabric, building, tenant, &others, told_by);
        }
        for core in 0..CORES {
            add_uplink(&mut fabric, building, core);
            add_core_routes(&mut fabric, building, core, &others);
        }
    }
    fabric
}

pub(super) fn tenant_port(building: u16, tenant: u16) -> u16 {
    1 + building * TENANTS + tenant
}

pub(super) fn uplink_port(building: u16, core: u16) -> u16 {
    100 + building * CORES + core
}

fn core_port(building: u16, core: u16) -> u16 {
    200 + building * CORES + core
}

/// 10.building.tenant.0
pub(super) fn network(building: u16, tenant: u16) -> u32 {
    10 << 24 | u32::from(building) << 16 | u32::from(tenant) << 8
}

pub(super) fn tag(tenant: u16) -> u32 {
    u32::from(tenant + 1) << 16
}

fn add_edge(fabric: &mut Fabric, building: u16, tenant: u16) {
    let port = tenant_port(building, tenant);
    let own = network(building, tenant);
    fabric.edges.push(Edge {
        group: tenant,
        port,
        admitted: Set::of_words([0xffff_ff00, 0, 0, 0], [own, 0, 0, 0]),
    });
    for service in [23, 445] {
        let matching = Set::of_words([0, 0, 0xffff, 0xff], [0, 0, service, 6]);
        fabric.entries.push(deny(30, port, matching));
    }
}

/// One route for the buildings that aren't told apart.
fn add_edge_routes(fabric: &mut Fabric, building: u16, tenant: u16, others: &[u16], told_by: u32) {
    let own = network(building, tenant);
    let mut told = Vec::new();
    for &other in others {
        let to = network(other, tenant) & told_by;
        if told.contains(&to) {
            continue;
        }
        told.push(to);
        fabric.entries.push(Entry {
            matching: Set::of_words([0xffff_ff00, told_by, 0, 0], [own, to, 0, 0]),
            rewrite: rewrite([0, 0, 0, 0xffff_0000], [0, 0, 0, tag(tenant)]),
            ..entry(
                20,
                tenant_port(building, tenant),
                uplink_port(building, other % CORES),
            )
        });
    }
}

/// The links between a building and a core, and what the building does with
/// packets from there.
fn add_uplink(fabric: &mut Fabric, building: u16, core: u16) {
    let (up, down) = (uplink_port(building, core), core_port(building, core));
    fabric.links.push(Link { from: up, to: down });
    fabric.links.push(Link { from: down, to: up });
    for tenant in 0..TENANTS {
        let to = network(building, tenant);
        let care = [0, 0xffff_ff00, 0, 0xffff_0000];
        fabric.entries.push(Entry {
            matching: Set::of_words(care, [0, to, 0, tag(tenant)]),
            rewrite: rewrite([0, 0, 0, 0xffff_0000], [0; 4]),
            ..entry(24, up, tenant_port(building, tenant))
        });
    }
}

fn add_core_routes(fabric: &mut Fabric, building: u16, core: u16, others: &[u16]) {
    let in_port = core_port(building, core);
    let host = network(2, 0) | 77;
    let matching = Set::of_words([u32::MAX, 0, 0, 0], [host, 0, 0, 0]);
    fabric.entries.push(deny(32, in_port, matching));
    for &other in others {
        fabric.entries.push(Entry {
            matching: Set::of_words([0, 0xffff_0000, 0, 0], [0, network(other, 0), 0, 0]),
            ..entry(16, in_port, core_port(other, core))
        });
    }
}
