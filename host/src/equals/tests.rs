//! Who else might take what arrives by ways on which addresses are copied and
//! swapped: held to each header alone.

use std::cell::Cell;

use super::Equals;
use crate::action::Transfer;
use crate::fabric::Fabric;
use crate::few_bits::{by_hand, headers, sets};
use crate::finds::Find;
use crate::header::{Header, HeaderSet};
use crate::path::Path;
use crate::record::Entry;
use crate::version::Version;
use reference::random::{cases, Rng};

/// So many entries of one priority at an in-port; a way takes one of them.
const EQUALS: usize = 4;

fn entry(rng: &mut Rng, in_port: u16) -> Entry {
    let mut some = || sets().nth(rng.below(sets().count())).unwrap();
    let (matching, written) = (some(), some());
    Entry {
        priority: 1,
        in_port,
        out_port: in_port + 1,
        matching: rng.one_of([HeaderSet::ALL_WILD, matching]),
        transfer: rng.one_of(Transfer::ALL),
        rewrite: rng.one_of([HeaderSet::ALL_WILD, HeaderSet::ALL_WILD, written]),
    }
}

/// The header at each hop, if all entries of this way match it.
fn followed(fabric: &Fabric, way: &[u16], header: Header) -> Option<Vec<Header>> {
    let mut here = header;
    let hop = |&number: &u16| {
        let (entry, header) = (&fabric.entries[usize::from(number)], here);
        here = by_hand(entry, &header);
        entry.matching.contains(&header).then_some(header)
    };
    way.iter().map(hop).collect()
}

/// At this hop, the other entries of its in-port that match one of these.
fn others(fabric: &Fabric, number: u16, arriving: &[Header]) -> Vec<u16> {
    let in_port = fabric.entries[usize::from(number)].in_port;
    let matches = |other: &Entry| {
        arriving
            .iter()
            .any(|header| other.matching.contains(header))
    };
    let others = fabric.numbered().filter(|(other, _)| *other != number);
    let others = others.filter(|(_, other)| other.in_port == in_port && matches(other));
    others.map(|(other, _)| other).collect()
}

/// Entries at a few in-ports, and a way by one of each.
fn random_way(rng: &mut Rng) -> (Fabric, Vec<u16>) {
    let hops = rng.between(2, 5);
    let in_ports = (0..hops).flat_map(|hop| [10 + hop as u16; EQUALS]);
    let entries = in_ports.map(|in_port| entry(rng, in_port)).collect();
    let way = (0..hops).map(|hop| (EQUALS * hop + rng.below(EQUALS)) as u16);
    let fabric = Fabric {
        entries,
        ..Fabric::default()
    };
    (fabric, way.collect())
}

/// Every set over a few bits whose headers all go by a way is a find.
#[test]
fn equals_are_those_of_single_headers() {
    // By whether there are some, and what the entry before did to the addresses.
    let times = Cell::new([[0; Transfer::ALL.len()]; 2]);
    cases(15_000_000, 2000, |rng| {
        let (fabric, way) = random_way(rng);
        let follow = |header| (header, followed(&fabric, &way, header));
        let all: Vec<(Header, Option<Vec<Header>>)> = headers().map(follow).collect();
        let equals = Equals::of(&fabric);
        for set in sets() {
            let within = all.iter().filter(|(header, _)| set.contains(header));
            let ways: Option<Vec<Vec<Header>>> = within.map(|(_, way)| way.clone()).collect();
            let Some(ways) = ways else { continue };
            let told = equals.along(&Find {
                port: 10,
                hops: way.len() as u32,
                entries: Path::new(Version::V1, way.iter().map(|&number| number.into())).unwrap(),
                set,
            });
            assert_eq!(told.len(), way.len());
            for (hop, (told, &number)) in told.iter().zip(&way).enumerate() {
                let arriving: Vec<Header> = ways.iter().map(|way| way[hop]).collect();
                assert_eq!(*told, others(&fabric, number, &arriving));
                if let Some(&before) = hop.checked_sub(1).and_then(|before| way.get(before)) {
                    let transfer = fabric.entries[usize::from(before)].transfer;
                    let mut seen = times.get();
                    seen[usize::from(told.is_empty())][transfer as usize] += 1;
                    times.set(seen);
                }
            }
        }
    });
    let replayed = std::env::var_os("SEED").is_some();
    assert!(replayed || times.get().as_flattened().iter().all(|&times| times > 1000));
}
