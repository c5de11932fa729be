//! The generators make what they promise.

mod common;

use std::ops::ControlFlow;

use common::{answer, Seen};
use reference::brute::finds_in;
use reference::calls::{self, answer_words, count};
use reference::file::{read, read_as, write};
use reference::index::Index;
use reference::random::{
    any, audited, beater_chain, campus, cases, crowded, dead_ends, deep_ring, deepest_in_version_2,
    denies_on_fields, every_beater_meets, in_both_versions, largest, leaky_ring, list_query,
    lost_packets, no_beater_meets, packet, query, random_denies, random_transit, replies, ring,
    routed_campus, small, small_query, small_ring, switches, ties, tiny, twenty_denies, wide_cases,
    wild_under_denies, Benchmark, InBoth, Rng, Small, WideRng,
};
use reference::trace::{trace, NOWHERE};
use reference::{list, wide, Bits, Entry, Fabric, OpenFlow, Query, Set, Transfer, Wide};

type Make = fn(&mut Rng) -> Fabric;
type MakeWide = fn(&mut WideRng) -> wide::Fabric;

#[test]
fn fabrics_are_accepted_and_read_back() {
    cases(900_000, 5000, |rng| {
        let fabric = any(rng);
        assert_eq!(read(&write(&fabric)), Ok(fabric));
    });
    wide_cases(1_900_000, 5000, |rng| {
        let fabric = any(rng);
        assert_eq!(read_as(&write(&fabric)), Ok(fabric));
    });
}

#[test]
fn a_seed_makes_the_same_fabric() {
    cases(1, 50, |rng| {
        let again = &mut rng.clone();
        assert_eq!(any(rng), any(again));
        assert_ne!(rng.draw(), rng.draw());
    });
}

#[test]
fn the_largest_file_is_as_large_as_can_be() {
    cases(910_000, 20, |rng| {
        assert_eq!(write(&largest(rng)).len(), 40_200);
    });
    wide_cases(1_910_000, 20, |rng| {
        assert_eq!(write(&largest(rng)).len(), 59_784);
    });
}

/// The most hops of a find, over all targets.
fn most_hops(fabric: &Fabric) -> usize {
    let index = Index::new(fabric);
    let mut most = 0;
    for edge in &fabric.edges {
        trace(&index, edge.port, 16, Set::ALL_WILD, 1_000_000, |find| {
            most = most.max(find.entries.len());
            ControlFlow::Continue(())
        });
    }
    most
}

#[test]
fn rings_and_switches_are_crossed() {
    let most = |make: Make| {
        let fabrics = (0..100).map(|seed| make(&mut Rng::new(seed)));
        fabrics.map(|fabric| most_hops(&fabric)).max()
    };
    assert_eq!(most(ring), Some(16));
    assert!(most(switches) >= Some(4));
}

#[test]
fn beater_chains_reach_63() {
    let chains = (0..300).map(|seed| beater_chain(&mut Rng::new(seed)));
    assert_eq!(chains.map(|fabric| fabric.entries.len()).max(), Some(64));
}

/// Whether two entries of an in-port have one priority and matches that meet.
fn has_equals(fabric: &Fabric) -> bool {
    let entries = &fabric.entries;
    let mut pairs = (0..entries.len()).flat_map(|a| (0..a).map(move |b| (a, b)));
    pairs.any(|(a, b)| {
        let (a, b) = (&entries[a], &entries[b]);
        let rank = |entry: &Entry| (entry.in_port, entry.priority);
        rank(a) == rank(b) && a.matching.meets(&b.matching)
    })
}

const GENERATORS: [(&str, Make); 12] = [
    ("tiny", |rng| tiny(rng).fabric),
    ("small", |rng| small(rng).fabric),
    ("ties", |rng| ties(rng).fabric),
    ("dead ends", |rng| dead_ends(rng).fabric),
    ("small ring", |rng| small_ring(rng).fabric),
    ("leaky ring", |rng| leaky_ring(rng).fabric),
    ("crowded", |rng| crowded(rng).fabric),
    ("switches", switches),
    ("ring", ring),
    ("beater chain", beater_chain),
    ("wild under denies", wild_under_denies),
    ("largest", largest),
];

/// How many of 300 fabrics are such.
fn such(make: Make, is_such: fn(&Fabric) -> bool) -> usize {
    let fabrics = (0..300).map(|seed| make(&mut Rng::new(seed)));
    fabrics.filter(is_such).count()
}

/// Each generator makes many fabrics with equals and many without.
#[test]
fn equals_and_none() {
    for (name, make) in GENERATORS {
        let with_equals = such(make, has_equals);
        let expected = match name {
            "ties" => 225..=299,
            _ => 75..=225,
        };
        assert!(expected.contains(&with_equals), "{name}: {with_equals}");
    }
}

fn has(fabric: &Fabric, transfer: Transfer) -> bool {
    let mut entries = fabric.entries.iter();
    entries.any(|entry| entry.transfer == transfer)
}

/// Each generator makes many fabrics whose entries copy and swap, and many where
/// none does either.
#[test]
fn transfers_and_none() {
    for (name, make) in GENERATORS {
        let both = such(make, |made| {
            has(made, Transfer::Copy) && has(made, Transfer::Swap)
        });
        let none = such(make, |made| {
            !has(made, Transfer::Copy) && !has(made, Transfer::Swap)
        });
        let few = if name == "tiny" { 20 } else { 75 };
        assert!(
            both >= few && (80..=225).contains(&none),
            "{name}: {both}, {none}"
        );
    }
}

/// Each generator makes many fabrics under OpenFlow 1.0, and many under 1.3.
#[test]
fn old_and_new_misses() {
    for (name, make) in GENERATORS {
        let new = such(make, |made| made.openflow == OpenFlow::V1_3);
        assert!((50..=100).contains(&new), "{name}: {new}");
    }
}

/// Whether a packet is lost after so many hops or more, whatever its header.
fn is_lost_after(fabric: &Fabric, hops: usize) -> bool {
    let mut found = false;
    let index = Index::new(fabric);
    trace(&index, NOWHERE, 16, Set::ALL_WILD, 20_000, |find| {
        found |= find.entries.len() >= hops;
        match found {
            true => ControlFlow::Break(()),
            false => ControlFlow::Continue(()),
        }
    });
    found
}

/// Most fabrics lose packets at once, many after two hops; a whole ring none.
#[test]
fn packets_are_lost() {
    let of = |make: Make| {
        let at_once = such(make, |made| is_lost_after(made, 0));
        (at_once, such(make, |made| is_lost_after(made, 2)))
    };
    assert_eq!(of(|rng| small_ring(rng).fabric), (0, 0));
    for (make, least) in [(any as Make, 30), (|rng| leaky_ring(rng).fabric, 100)] {
        let (at_once, far) = of(make);
        assert!(at_once > 200 && far >= least, "{at_once}, {far}");
    }
}

/// Of 3,000 queries of a list one in six is of the lost, and few of a verdict.
#[test]
fn queries_of_the_lost() {
    let share = |ask: fn(&mut Rng) -> Query| {
        let queries = (0..3000).map(|seed| ask(&mut Rng::new(seed)));
        queries.filter(Query::is_of_the_lost).count()
    };
    let of_list = share(|rng| {
        let made = any(rng);
        list_query(rng, &made, 100)
    });
    let of_small = share(|rng| {
        let made = small(rng);
        small_query(rng, &made)
    });
    let of_verdict = share(|rng| {
        let made = any(rng);
        query(rng, &made, 100)
    });
    assert!((450..=750).contains(&of_list), "{of_list}");
    assert!((400..=600).contains(&of_small), "{of_small}");
    assert!((50..=250).contains(&of_verdict), "{of_verdict}");
}

/// The same generators in version 2, but for the tiny one's.
const WIDE_GENERATORS: [(&str, MakeWide); 11] = [
    ("small", |rng| small(rng).fabric),
    ("ties", |rng| ties(rng).fabric),
    ("dead ends", |rng| dead_ends(rng).fabric),
    ("small ring", |rng| small_ring(rng).fabric),
    ("leaky ring", |rng| leaky_ring(rng).fabric),
    ("crowded", |rng| crowded(rng).fabric),
    ("switches", switches),
    ("ring", ring),
    ("beater chain", beater_chain),
    ("wild under denies", wild_under_denies),
    ("largest", largest),
];

/// In most fabrics of each generator a match has an Ethernet field, and in many of
/// most generators a rewrite and an admitted set.
#[test]
fn ethernet_fields() {
    let has = |bits: Wide| bits.ethernet != 0;
    for (name, make) in WIDE_GENERATORS {
        let [mut matches, mut rewrites, mut admitted] = [0; 3];
        for made in (0..300).map(|seed| make(&mut WideRng::new(seed))) {
            let (entries, edges) = (&made.entries, &made.edges);
            matches += u32::from(entries.iter().any(|entry| has(entry.matching.care)));
            rewrites += u32::from(entries.iter().any(|entry| has(entry.rewrite.mask)));
            admitted += u32::from(edges.iter().any(|edge| has(edge.admitted.care)));
        }
        println!("{name}: {matches}, {rewrites}, {admitted}");
        let one_switch = ["beater chain", "wild under denies"].contains(&name);
        let few = if one_switch { 0 } else { 100 };
        assert!(
            matches >= 150 && rewrites >= few && admitted >= 100,
            "{name}"
        );
    }
}

/// Most queries of version 2 are in range, and some care for a bit that must be zero.
#[test]
fn zero_bits_in_queries() {
    let [proper, of_queries, of_packets]: [Seen; 3] = Default::default();
    wide_cases(1_930_000, 2000, |rng| {
        let made = any(rng);
        let (asked, sent) = (query(rng, &made, 100).asked(), packet(rng, &made).asked());
        let cares = |set: &wide::Set| set.care & Wide::ZERO_BITS != Wide::NONE;
        proper.count(asked.is_proper() && sent.is_proper());
        of_queries.count(cares(&asked));
        of_packets.count(cares(&sent));
    });
    proper.at_least(1600);
    of_queries.at_least(30);
    of_packets.at_least(1);
}

/// Copies and swaps move none of a small fabric's bits elsewhere.
#[test]
fn small_fabrics_have_the_same_bits_of_both_addresses() {
    let makes: [fn(&mut Rng) -> Small; 7] = [
        tiny, small, ties, dead_ends, small_ring, leaky_ring, crowded,
    ];
    for make in makes {
        cases(920_000, 200, |rng| {
            let bits = make(rng).bits;
            let of = |word: u32| {
                let mut bits: Vec<u32> = bits
                    .iter()
                    .copied()
                    .filter(|bit| bit / 32 == word)
                    .collect();
                bits.sort();
                bits.into_iter().map(|bit| bit % 32).collect::<Vec<_>>()
            };
            assert_eq!(of(3), of(2));
            assert!(!of(3).is_empty());
        });
    }
}

/// Entries, units and finds of a benchmark, whose target is isolated.
fn measure<B: Bits>(benchmark: Benchmark<B>, lent: usize) -> (usize, u32, usize) {
    let Benchmark { fabric, query, .. } = benchmark;
    let file = write(&fabric);
    assert_eq!(read_as(&file), Ok(fabric.clone()));
    let room = 4 * answer_words::<B>();
    let words = answer(calls::verdict, &file, room, &query).unwrap();
    assert_eq!(words[0], 0);
    let units = words[1];
    let short = calls::Query {
        budget: units - 1,
        ..query
    };
    assert_eq!(answer(calls::verdict, &file, room, &short), Err((13, 0)));
    let listed = answer(calls::list, &file, lent, &query).unwrap();
    let finds = finds_in::<B>(&listed).unwrap();
    (fabric.entries.len(), units, finds.len())
}

#[test]
fn the_benchmarks() {
    assert_eq!(measure(twenty_denies(), 40 << 20), (21, 1 << 20, 1 << 20));
    assert_eq!(measure(deep_ring(), 1 << 20), (512, 105_986, 256));
    assert_eq!(most_hops(&deep_ring().fabric), 16);
    assert_eq!(measure(campus(), 1 << 20), (504, 6722, 468));
    assert_eq!(most_hops(&campus().fabric), 3);
    assert_eq!(measure(replies(), 1 << 20), (384, 10_351, 1287));
    assert_eq!(most_hops(&replies().fabric), 7);
    assert_eq!(measure(routed_campus(), 1 << 20), (288, 45_982, 6250));
    assert_eq!(most_hops(&routed_campus().fabric), 16);
    assert_eq!(measure(random_denies(), 1 << 20), (500, 111_749, 9821));
    assert_eq!(measure(random_transit(), 1 << 20), (500, 292_016, 659));
}

/// Entries, units and finds are the same in both, also where Ethernet fields tell
/// the hosts.
#[test]
fn the_benchmarks_in_both_versions() {
    let expected = [
        (370, 4389, 429),
        (288, 45_982, 6250),
        (21, 1 << 20, 1 << 20),
        (384, 30_560, 64),
        (384, 10_351, 1287),
        (400, 62_462, 2552),
        (400, 24_391, 41),
        (370, 4389, 429),
    ];
    let all = in_both_versions();
    assert_eq!(all.len(), expected.len());
    for (InBoth { old, wide }, expected) in all.into_iter().zip(expected) {
        assert_eq!(measure(old, 40 << 20), expected);
        assert_eq!(measure(wide, 72 << 20), expected);
    }
    let InBoth { old, wide } = deepest_in_version_2();
    assert_eq!(most_hops(&old.fabric), 16);
    assert_eq!(measure(old, 1 << 20), (384, 1212, 3));
    assert_eq!(measure(wide, 1 << 20), (384, 1212, 3));
}

/// Units and finds of the lists of the lost that time is measured with.
#[test]
fn the_benchmarks_of_the_lost() {
    let measured = lost_packets().map(|Benchmark { fabric, query, .. }| {
        assert!(query.is_of_the_lost());
        let listed = answer(list, &write(&fabric), 6 << 20, &query).unwrap();
        // No packet has made a hop: each find is nine words.
        (count(&fabric, &query), listed.len())
    });
    let expected = [(Some(5_718_676), 9 * 147_888), (Some(244_345), 9)];
    assert_eq!(measured, expected);
}

#[test]
fn denies_multiply_from_field_to_field() {
    let measured = denies_on_fields().map(|benchmark| measure(benchmark, 4 << 20));
    let expected = [
        (9, 161, 21),
        (17, 3521, 441),
        (25, 49_385, 5733),
        (33, 662_816, 80_262),
    ];
    assert_eq!(measured, expected);
}

#[test]
fn all_edges_of_the_audit_are_isolated() {
    let benchmark = audited();
    assert_eq!(benchmark.fabric.edges.len(), 64);
    let mut units = 0;
    for edge in &benchmark.fabric.edges {
        let mut about = benchmark.clone();
        about.query.port = edge.port.into();
        units += measure(about, 1 << 20).1;
    }
    assert_eq!(units, 243_721);
}

/// One way of 16 hops with the same beaters, of which each takes a bit of its own
/// from the part, or none meets it.
#[test]
fn the_descents() {
    for (descent, cared) in [(every_beater_meets(), 63), (no_beater_meets(), 1)] {
        let index = Index::new(&descent.fabric);
        let mut hops = Vec::new();
        trace(&index, 2, 16, Set::ALL_WILD, 2000, |find| {
            assert_eq!(find.set.care.count_ones(), cared);
            hops.push(find.entries.len());
            ControlFlow::Continue(())
        });
        hops.sort();
        assert_eq!(hops, [2, 9, 16]);
        assert_eq!(measure(descent, 1 << 20), (512, 1213, 3));
    }
}
