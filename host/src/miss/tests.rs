//! What a set of packets is behind a way, held to each of its headers.

use std::cell::Cell;
use std::collections::HashSet;

use super::Miss;
use crate::action::Transfer;
use crate::fabric::Fabric;
use crate::few_bits::{by_hand, headers, sets, without_others};
use crate::finds::Find;
use crate::header::{Header, HeaderSet};
use crate::path::Path;
use crate::record::{Edge, Entry, Link};
use crate::version::Version;
use reference::random::{cases, Rng};

/// A row of switches, each with one entry, of which the last leads to an in-port
/// without one; and its number of entries.
fn random_row(rng: &mut Rng) -> (Fabric, u16) {
    let hops = rng.below(4) as u16;
    let mut some = || sets().nth(rng.below(sets().count())).unwrap();
    let mut rewrites: Vec<HeaderSet> = (0..hops).map(|_| some()).collect();
    rewrites.retain(|_| !rng.once_in(3));
    rewrites.resize(hops.into(), HeaderSet::ALL_WILD);
    let entries = (0..hops).zip(rewrites).map(|(hop, rewrite)| Entry {
        priority: 1,
        in_port: in_port(hop),
        out_port: out_port(hop),
        matching: HeaderSet::ALL_WILD,
        transfer: rng.one_of(Transfer::ALL),
        rewrite,
    });
    let fabric = Fabric {
        edges: vec![Edge {
            group: 1,
            port: in_port(0),
            admitted: HeaderSet::ALL_WILD,
        }],
        entries: entries.collect(),
        links: (0..hops)
            .map(|hop| Link {
                from: out_port(hop),
                to: in_port(hop + 1),
            })
            .collect(),
        ..Fabric::default()
    };
    (fabric, hops)
}

fn in_port(hop: u16) -> u16 {
    10 * hop + 1
}

fn out_port(hop: u16) -> u16 {
    10 * hop + 2
}

fn find(hops: u16, set: HeaderSet) -> Find {
    Find {
        port: in_port(0),
        hops: hops.into(),
        entries: Path::new(Version::V1, (0..hops).map(u32::from)).unwrap(),
        set,
    }
}

/// The smallest set with all of these headers.
fn smallest(headers: &HashSet<Header>) -> HeaderSet {
    let one = headers.iter().next().unwrap();
    let same = |word: usize| {
        let differing = headers.iter().map(|other| other.0[word] ^ one.0[word]);
        !differing.fold(0, |all, bits| all | bits)
    };
    let care = std::array::from_fn(same);
    HeaderSet {
        care,
        value: std::array::from_fn(|word| one.0[word] & care[word]),
    }
}

/// How many headers a set has, if it isn't too wild.
fn size(set: &HeaderSet) -> usize {
    let cared_for: u32 = set.care.iter().map(|word| word.count_ones()).sum();
    1 << (128 - cared_for)
}

#[test]
fn behind_a_way_each_header_is_in_the_set() {
    // By whether the set has others too.
    let times = Cell::new([0; 2]);
    cases(15_100_000, 300, |rng| {
        let (fabric, hops) = random_row(rng);
        for set in sets().map(without_others) {
            let within = headers().filter(|header| set.contains(header));
            let followed = within.map(|header| {
                let entries = fabric.entries.iter();
                entries.fold(header, |header, entry| by_hand(entry, &header))
            });
            let followed: HashSet<Header> = followed.collect();
            let set_then = smallest(&followed);
            let expected = Miss {
                in_port: in_port(hops),
                set: set_then,
                exact: followed.len() == size(&set_then),
            };
            assert_eq!(fabric.miss(&find(hops, set)), Some(expected));
            let mut seen = times.get();
            seen[usize::from(expected.exact)] += 1;
            times.set(seen);
        }
    });
    let replayed = std::env::var_os("SEED").is_some();
    assert!(replayed || times.get().iter().all(|&times| times > 1000));
}

/// A way that this fabric doesn't have, or that doesn't lead on, leads nowhere.
#[test]
fn another_fabrics_find() {
    let text =
        "link 2 -> 11\nentry 1 -> 2 priority 1 match any\nentry 11 -> 3 priority 1 match any";
    let fabric = Fabric::read(&crate::text::pack(text).unwrap()).unwrap();
    let lost_at = |hops| {
        fabric
            .miss(&find(hops, HeaderSet::ALL_WILD))
            .map(|miss| miss.in_port)
    };
    assert_eq!(lost_at(0), Some(1));
    assert_eq!(lost_at(1), Some(11));
    assert_eq!(lost_at(2), None);
    assert_eq!(lost_at(3), None);
}
