//! Packets that no entry takes (document 02's 2.7) in the static library, at random:
//! the list of the lost, by target 0, against the reference word by word, against
//! plain forwarding of every header, and against runs, under OpenFlow 1.0 and 1.3.

mod common;

use std::ops::ControlFlow;
use std::thread;

use common::checks::refused;
use common::{agreed, product_alone, Seen, LIST, RUN, VERDICT};
use mwishovala::limits;
use reference::brute::{arrivals, check_list, ends, finds, Find, BUDGET, MOST_WAYS};
use reference::calls::read_answer;
use reference::examples::{edge, entry, fabric, link, run_query, wild_query};
use reference::file::write;
use reference::index::Index;
use reference::random::{
    any, campus, cases, crowded, dead_ends, deep_ring, leaky_ring, packet, query, routed_campus,
    small, small_query, ties, tiny, Rng, Small,
};
use reference::set::to_words;
use reference::trace::{trace, Ended, NOWHERE};
use reference::ways::{Packet, DROPPED, LOST, TIED};
use reference::{Entry, Fabric, Header, OpenFlow, Query, Rewrite, Set};

/// Units for most lists of these tests.
const MOST_UNITS: u32 = 20_000;

/// What a list takes.
#[derive(Clone, Copy)]
struct Needs {
    units: u32,
    bytes: usize,
}

/// What the list of the lost takes, if that is at most so many units.
fn needs(fabric: &Fabric, asked: &Query, most: u32) -> Option<Needs> {
    let index = Index::new(fabric);
    let (limit, set) = (asked.limit as usize, asked.asked());
    let mut bytes = 0;
    let ended = trace(&index, NOWHERE, limit, set, most, |find| {
        bytes += 4 * (9 + find.entries.len());
        ControlFlow::Continue(())
    });
    match ended {
        Ended::Whole(units) => Some(Needs { units, bytes }),
        _ => None,
    }
}

/// The list with the budget and the room that it needs, and with one unit or one
/// byte less. Where both are short, 13 comes first.
fn just_enough_and_less(fabric: &Fabric, asked: &Query, needs: Needs) -> Vec<Find> {
    let Needs { units, bytes } = needs;
    let file = write(fabric);
    let with = |budget| Query { budget, ..*asked };
    let words = agreed(LIST, &file, bytes, &with(units)).unwrap();
    assert_eq!(4 * words.len(), bytes);
    let more = agreed(LIST, &file, bytes + 5, &with(units + 1));
    assert_eq!(more.as_ref(), Ok(&words));
    if bytes > 0 {
        refused(LIST, &file, bytes - 1, &with(units), 12);
    }
    if units > 0 {
        refused(LIST, &file, bytes, &with(units - 1), 13);
        refused(LIST, &file, bytes.saturating_sub(1), &with(units - 1), 13);
    }
    finds(&words).unwrap()
}

/// Whether one of these has so many hops, or more.
fn has_hops(finds: &[Find], hops: usize) -> bool {
    finds.iter().any(|find| find.entries.len() >= hops)
}

#[test]
fn random_fabrics() {
    let [lists, at_once, behind_two_hops, with_units, long]: [Seen; 5] = Default::default();
    cases(16_000_000, 8000, |rng| {
        let fabric = Fabric {
            openflow: OpenFlow::V1_0,
            ..any(rng)
        };
        let asked = query(rng, &fabric, MOST_UNITS).of_the_lost();
        let in_range = asked.asked().is_proper() && (1..=16).contains(&asked.limit);
        let needs = needs(&fabric, &asked, MOST_UNITS).filter(|_| in_range);
        let Some(needs) = needs else {
            assert!(agreed(LIST, &write(&fabric), 4000, &asked).is_err());
            return;
        };
        let finds = just_enough_and_less(&fabric, &asked, needs);
        lists.add(1);
        at_once.add(finds.iter().any(|find| find.entries.is_empty()).into());
        behind_two_hops.add(has_hops(&finds, 2).into());
        with_units.add((needs.units > 0).into());
        long.add((finds.len() > 1000).into());
    });
    lists.at_least(4000);
    at_once.at_least(3000);
    behind_two_hops.at_least(500);
    with_units.at_least(3000);
    long.at_least(100);
}

/// Verdicts of the lost are refused, and under OpenFlow 1.3 lists of them.
#[test]
fn random_fabrics_under_either() {
    let [refused_lists, answered]: [Seen; 2] = Default::default();
    cases(16_100_000, 4000, |rng| {
        let fabric = any(rng);
        let file = write(&fabric);
        let asked = query(rng, &fabric, MOST_UNITS).of_the_lost();
        let lent = rng.one_of([0, 95, 96, 4000]);
        refused(VERDICT, &file, lent, &asked, 8);
        match fabric.openflow {
            OpenFlow::V1_0 => {
                let answer = agreed(LIST, &file, lent, &asked);
                assert_ne!(answer, Err((8, 0)));
                answered.add(answer.is_ok().into());
            }
            OpenFlow::V1_3 => {
                refused(LIST, &file, lent, &asked, 8);
                refused_lists.add(1);
            }
        }
    });
    refused_lists.at_least(500);
    answered.at_least(500);
}

type Make = fn(&mut Rng) -> Small;

/// Each way of a packet that is lost stands in one find, and nothing else does:
/// every header over a few bits is forwarded from every edge port, under every
/// choice. Gives the finds of each list that was checked.
fn forwarded(first: u64, number: u64, make: Make, show: impl Fn(&[Find])) {
    cases(first, number, |rng| {
        let mut made = make(rng);
        made.fabric.openflow = OpenFlow::V1_0;
        let file = write(&made.fabric);
        let limit = small_query(rng, &made).limit;
        let Some(ends) = ends(&made.fabric, &made.bits, limit, MOST_WAYS) else {
            return;
        };
        for _ in 0..3 {
            let asked = Query {
                limit,
                budget: BUDGET,
                ..small_query(rng, &made).of_the_lost()
            };
            let Some(needs) = needs(&made.fabric, &asked, BUDGET) else {
                return;
            };
            let (code, area) = product_alone(LIST, &file, needs.bytes, &asked);
            let words = read_answer(code, &area).unwrap();
            check_list(&made.bits, &arrivals(&ends, &asked), &words).unwrap();
            show(&finds(&words).unwrap());
        }
    });
}

#[test]
fn every_header_of_small_fabrics() {
    let makes: [(Make, usize); 6] = [
        (tiny, 5),
        (small, 300),
        (ties, 150),
        (dead_ends, 100),
        (crowded, 100),
        (leaky_ring, 1000),
    ];
    for (first, (make, least_far)) in (16_200_000..).step_by(10_000).zip(makes) {
        let [checked, far]: [Seen; 2] = Default::default();
        forwarded(first, 2000, make, |finds| {
            checked.add(1);
            far.add(has_hops(finds, 2).into());
        });
        checked.at_least(5000);
        far.at_least(least_far);
    }
}

/// Any budget, from none up.
#[test]
fn every_budget() {
    let counted = Seen::default();
    let makes: [Make; 4] = [small, ties, crowded, leaky_ring];
    for (first, make) in (16_300_000..).step_by(10_000).zip(makes) {
        cases(first, 300, |rng| {
            let mut made = make(rng);
            made.fabric.openflow = OpenFlow::V1_0;
            let file = write(&made.fabric);
            let asked = small_query(rng, &made).of_the_lost();
            let Some(Needs { units, bytes }) = needs(&made.fabric, &asked, 100) else {
                return;
            };
            for budget in 0..=units + 1 {
                let answer = agreed(LIST, &file, bytes, &Query { budget, ..asked });
                assert_eq!(answer.is_ok(), budget >= units, "{budget}");
            }
            counted.add((units > 5).into());
        });
    }
    counted.at_least(500);
}

/// A list of the lost, whatever their headers.
struct Listed {
    fabric: Fabric,
    file: Vec<u8>,
    limit: u32,
    finds: Vec<Find>,
}

impl Listed {
    /// Of a random fabric, unless that takes too many units.
    fn any(rng: &mut Rng) -> Option<Listed> {
        let fabric = Fabric {
            openflow: OpenFlow::V1_0,
            ..any(rng)
        };
        let file = write(&fabric);
        let limit = rng.between(1, 16) as u32;
        let asked = wild_query(0, limit, MOST_UNITS);
        let room = needs(&fabric, &asked, MOST_UNITS)?.bytes;
        let words = agreed(LIST, &file, room, &asked).unwrap();
        Some(Listed {
            fabric,
            file,
            limit,
            finds: finds(&words).unwrap(),
        })
    }

    /// The fate of a packet's run, and its entries.
    fn run(&self, start: u16, header: Header) -> (u32, Vec<u32>) {
        let asked = run_query(start.into(), self.limit, to_words(header));
        let words = agreed(RUN, &self.file, 96, &asked).unwrap();
        (words[0], words[8..][..words[3] as usize].to_vec())
    }

    /// The ways of the finds that this packet is in.
    fn ways(&self, start: u16, header: Header) -> Vec<Vec<u32>> {
        let holds = |find: &&Find| find.port == start && find.set.contains(header);
        let holding = self.finds.iter().filter(holds);
        holding.map(|find| find.entries.clone()).collect()
    }
}

/// A packet of a find is lost by its run, or its run is tied on the find's way.
#[test]
fn runs_of_finds_are_lost() {
    let [lost, tied]: [Seen; 2] = Default::default();
    cases(16_400_000, 3000, |rng| {
        let Some(listed) = Listed::any(rng) else {
            return;
        };
        for find in listed.finds.iter().take(50) {
            let header = find.set.value | rng.bits() & !find.set.care;
            let (fate, taken) = listed.run(find.port, header);
            match fate {
                LOST => assert_eq!(taken, find.entries),
                fate => assert!(fate == TIED && find.entries.starts_with(&taken)),
            }
            lost.add((fate == LOST).into());
            tied.add((fate == TIED).into());
        }
    });
    lost.at_least(10_000);
    tied.at_least(500);
}

/// A packet whose run is lost is in one find, by its run's entries; one whose run
/// ends otherwise, unless it is tied, is in none.
#[test]
fn lost_runs_are_found() {
    let [lost, others]: [Seen; 2] = Default::default();
    cases(16_450_000, 3000, |rng| {
        let Some(listed) = Listed::any(rng) else {
            return;
        };
        for _ in 0..5 {
            let asked = packet(rng, &listed.fabric);
            let (port, header) = (asked.port, asked.asked().value);
            let Some(start) = listed.fabric.edge(port).map(|edge| edge.port) else {
                continue;
            };
            let (fate, taken) = listed.run(start, header);
            let ways = listed.ways(start, header);
            match fate {
                TIED => continue,
                LOST => assert_eq!(ways, [taken]),
                _ => assert!(ways.is_empty()),
            }
            lost.add((fate == LOST).into());
            others.add((fate != LOST).into());
        }
    });
    lost.at_least(1000);
    others.at_least(500);
}

/// From 1.0 to 1.3 fate 2 becomes 1, and all else stays.
#[test]
fn runs_under_either() {
    let [missed, others]: [Seen; 2] = Default::default();
    cases(16_500_000, 4000, |rng| {
        let mut fabric = any(rng);
        for _ in 0..5 {
            let asked = packet(rng, &fabric);
            let of = |fabric: &Fabric| agreed(RUN, &write(fabric), 96, &asked);
            fabric.openflow = OpenFlow::V1_0;
            let old = of(&fabric);
            fabric.openflow = OpenFlow::V1_3;
            let new = of(&fabric);
            let expected = old.clone().map(|mut words| {
                if words[0] == LOST {
                    words[0] = DROPPED;
                }
                words
            });
            assert_eq!(new, expected);
            let Ok(words) = old else {
                continue;
            };
            let naive = Packet::asked(&fabric, &asked).run();
            assert_eq!(new, Ok(naive.words().unwrap().to_vec()));
            missed.add((words[0] == LOST).into());
            others.add((words[0] != LOST).into());
        }
    });
    missed.at_least(2000);
    others.at_least(5000);
}

/// A verdict, and a list of what leaves at an edge port, don't ask for the miss.
#[test]
fn what_leaves_is_the_same_under_either() {
    let answered = Seen::default();
    cases(16_600_000, 2000, |rng| {
        let mut fabric = any(rng);
        let asked = query(rng, &fabric, MOST_UNITS);
        if asked.is_of_the_lost() {
            return;
        }
        for (call, lent) in [(VERDICT, 96), (LIST, 10_000)] {
            let [old, new] = OpenFlow::ALL.map(|openflow| {
                fabric.openflow = openflow;
                agreed(call, &write(&fabric), lent, &asked)
            });
            assert_eq!(old, new);
            answered.add(old.is_ok().into());
        }
    });
    answered.at_least(1500);
}

/// Many finds without a hop, many units without a find, and many finds behind up to
/// 15 hops.
#[test]
fn benchmark_fabrics() {
    let from_the_first = Set::of_words([0xffff_ff00, 0, 0, 0], [0x0a00_0000, 0, 0, 0]);
    for (benchmark, asked, expected) in [
        (campus(), Set::ALL_WILD, (5_718_676, 147_888, 0)),
        (deep_ring(), Set::ALL_WILD, (244_345, 1, 0)),
        (routed_campus(), from_the_first, (142_550, 18_788, 15)),
    ] {
        let asked = benchmark.query.of_the_lost().about(asked);
        let needs = needs(&benchmark.fabric, &asked, u32::MAX).unwrap();
        let finds = just_enough_and_less(&benchmark.fabric, &asked, needs);
        let most_hops = finds.iter().map(|find| find.entries.len()).max();
        assert_eq!(
            (needs.units, finds.len(), most_hops.unwrap()),
            expected,
            "{}",
            benchmark.name
        );
    }
}

/// The deepest descent there is: 64 entries where a link ends, each of which leaves
/// one part, and 62 or 63 beaters at each of up to 14 hops before it. Entries are for
/// a bit of an address each, and allows write both addresses.
fn deepest() -> Fabric {
    let denies = |in_port, number: u32| {
        (0..number).map(move |bit| Entry {
            matching: Set {
                care: 1 << (64 + bit),
                value: 1 << (64 + bit),
            },
            ..entry(2, in_port, 0)
        })
    };
    let allow = |in_port, out_port| Entry {
        rewrite: Rewrite::to(Set::of_words([u32::MAX, u32::MAX, 0, 0], [0; 4])),
        ..entry(1, in_port, out_port)
    };
    let mut entries = vec![allow(1, 20), allow(11, 21), allow(11, 30), allow(12, 20)];
    for (in_port, number) in [(1, 63), (11, 62), (12, 63), (31, 64)] {
        entries.extend(denies(in_port, number));
    }
    let links = [link(20, 11), link(21, 12), link(30, 31)];
    fabric(&[edge(1, 1)], &links, &entries)
}

#[test]
fn the_least_stack_is_enough() {
    let deepest = deepest();
    let asked = wild_query(0, 16, MOST_UNITS);
    let needs = needs(&deepest, &asked, MOST_UNITS).unwrap();
    let finds = just_enough_and_less(&deepest, &asked, needs);
    let mut hops: Vec<usize> = finds.iter().map(|find| find.entries.len()).collect();
    hops.sort();
    assert_eq!(hops, [2, 4, 6, 8, 10, 12, 14]);
    let file = write(&deepest);
    let call = move || LIST.product(&file, &mut vec![0; needs.bytes], &asked);
    let thread = thread::Builder::new().stack_size(limits::STACK_BYTES);
    let code = thread.spawn(call).unwrap().join().unwrap();
    assert_eq!(code, 256 * needs.bytes as u64 / 4);
}
