//! One switch with random entries.

use super::{deny, Benchmark};
use crate::examples::{edge, entry, tp_dst};
use crate::fabric::{Entry, Fabric};
use crate::random::parts::{address, both, prefix_of};
use crate::random::Rng;
use crate::set::Set;

const SEED: u64 = 2;
const ALLOWS: usize = 30;
const DENIES: usize = 20;
/// Of the allows, and as many above them of the denies.
const PRIORITIES: u16 = 100;

/// 500 random entries at ten edges.
pub fn random_denies() -> Benchmark {
    random_denies_at(10, "random denies")
}

/// Random entries at so many edges of one switch, all of one group. At each edge there
/// are thirty allows, and twenty denies that beat them all.
pub(super) fn random_denies_at(edges: u16, name: &'static str) -> Benchmark {
    let rng = &mut Rng::new(SEED);
    let mut fabric = Fabric::default();
    for port in 1..=edges {
        fabric.edges.push(edge(1, port));
        fabric
            .entries
            .extend((0..ALLOWS).map(|_| random_allow(rng, port, edges)));
        fabric
            .entries
            .extend((0..DENIES).map(|_| random_deny(rng, port)));
    }
    rng.shuffle(&mut fabric.entries);
    Benchmark::all_wild(name, fabric, 1)
}

/// To any other edge.
fn random_allow(rng: &mut Rng, in_port: u16, edges: u16) -> Entry {
    let out_port = (in_port - 1 + rng.between(1, usize::from(edges) - 1) as u16) % edges + 1;
    let matching = wide_route(rng);
    let priority = rng.below(PRIORITIES.into()) as u16;
    Entry {
        matching,
        ..entry(priority, in_port, out_port)
    }
}

fn random_deny(rng: &mut Rng, in_port: u16) -> Entry {
    let matching = flow(rng);
    let priority = PRIORITIES + rng.below(PRIORITIES.into()) as u16;
    deny(priority, in_port, matching)
}

/// A prefix of nw_dst and perhaps one of nw_src.
fn wide_route(rng: &mut Rng) -> Set {
    let from = prefix(rng, 0, [0, 0, 8, 16]);
    both(from, prefix(rng, 1, [8, 16, 16, 24]))
}

/// Perhaps a prefix of each address, perhaps a tp_dst and perhaps an nw_proto.
fn flow(rng: &mut Rng) -> Set {
    let any = Set::ALL_WILD;
    let from = prefix(rng, 0, [0, 16, 24, 32]);
    let to = prefix(rng, 1, [0, 16, 24, 32]);
    let service = rng.one_of([any, any, tp_dst(23), tp_dst(80)]);
    let protocol = rng.one_of([any, any, nw_proto(6), nw_proto(17)]);
    [to, service, protocol].into_iter().fold(from, both)
}

/// A prefix, of one of these lengths, of one of a few networks.
fn prefix(rng: &mut Rng, word: usize, lengths: [u32; 4]) -> Set {
    let network = address(rng.below(8), rng.below(8));
    prefix_of(word, network, rng.one_of(lengths))
}

fn nw_proto(number: u32) -> Set {
    Set::of_words([0, 0, 0, 0xff], [0, 0, 0, number])
}
