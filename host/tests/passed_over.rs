//! Beaters that a part doesn't meet are passed over, each for its unit: every
//! budget, from none to more than enough, against the reference.

mod common;

use common::{agreed, fresh, product_alone, Call, Seen, LIST, VERDICT};
use reference::calls::count;
use reference::examples::{edge, entry, fabric, wild_query};
use reference::file::write;
use reference::random::{
    cases, crowded, dead_ends, every_beater_meets, no_beater_meets, small, small_query, small_ring,
    ties, Rng, Small,
};
use reference::{Entry, Fabric, OpenFlow, Query, Set};

/// Room for most lists of these tests.
const ROOM: usize = 4000;

/// Verdict and list with each budget up to one more than the list's count, if that
/// is at most this much; gives the count. Of the lost there is no verdict, and
/// under OpenFlow 1.3 no list.
fn every_budget(fabric: &Fabric, asked: &Query, most: u32) -> Option<u32> {
    let file = write(fabric);
    let lost = asked.is_of_the_lost();
    if lost && fabric.openflow == OpenFlow::V1_3 {
        assert_eq!(agreed(LIST, &file, ROOM, asked), Err((8, 0)));
        return None;
    }
    let within = Query {
        budget: most,
        ..*asked
    };
    let count = count(fabric, &within)?;
    for budget in 0..=count + 1 {
        let asked = Query { budget, ..*asked };
        let listed = agreed(LIST, &file, ROOM, &asked);
        assert_eq!(listed == Err((13, 0)), budget < count, "{asked:x?}");
        match agreed(VERDICT, &file, 96, &asked) {
            Ok(words) => assert!(words[1] <= budget && !lost),
            no => assert_eq!(no, Err((if lost { 8 } else { 13 }, 0))),
        }
    }
    Some(count)
}

type Make = fn(&mut Rng) -> Small;

/// Every budget of small fabrics whose count isn't large; shows each with its count.
fn every_budget_of_many(seeds: (u64, u64), make: Make, show: impl Fn(&Fabric, u32)) {
    cases(seeds.0, seeds.1, |rng| {
        let made = make(rng);
        let asked = small_query(rng, &made);
        if let Some(count) = every_budget(&made.fabric, &asked, 150) {
            show(&made.fabric, count);
        }
    });
}

#[test]
fn crowded_in_ports() {
    let passing = Seen::default();
    every_budget_of_many((9_500_000, 3000), crowded, |fabric, count| {
        passing.add(usize::from(count > 20 && passes_over_most(fabric)));
    });
    passing.at_least(800);
}

/// Whether an entry has eight beaters or more, of which at most one in four meets
/// it.
fn passes_over_most(fabric: &Fabric) -> bool {
    let mut leading_on = fabric.entries.iter().filter(|entry| entry.out_port != 0);
    leading_on.any(|entry| {
        let beats = |other: &&Entry| {
            (other.in_port, other.priority > entry.priority) == (entry.in_port, true)
        };
        let beaters = || fabric.entries.iter().filter(beats);
        let met = beaters().filter(|beater| beater.matching.meets(&entry.matching));
        beaters().count() >= 8.max(4 * met.count())
    })
}

#[test]
fn small_fabrics() {
    let makes: [Make; 4] = [small, dead_ends, ties, small_ring];
    for (first, make) in (9_510_000..).step_by(10_000).zip(makes) {
        let counted = Seen::default();
        every_budget_of_many((first, 1000), make, |_, count| {
            counted.add(usize::from(count > 5));
        });
        counted.at_least(200);
    }
}

/// 16 hops of 63 beaters, all of which meet or none.
#[test]
fn the_deepest_descents() {
    for descent in [every_beater_meets(), no_beater_meets()] {
        let count = every_budget(&descent.fabric, &descent.query, 2000);
        assert_eq!(count, Some(1213));
    }
}

/// Entry 3 leads from port 1 to port 2, for an nw_proto of 6. The others beat it:
/// 0, 1, 4 and 6 are for another nw_proto, 2 leaves two parts, and 5 meets the
/// first of these alone.
fn some_are_passed_over() -> Fabric {
    let other_protocol = Set::of_words([0, 0, 0, 0xff], [0, 0, 0, 17]);
    let beater = |matching| Entry {
        matching,
        ..entry(2, 1, 0)
    };
    let leads = Entry {
        matching: Set::of_words([0, 0, 0, 0xff], [0, 0, 0, 6]),
        ..entry(1, 1, 2)
    };
    let entries = [
        beater(other_protocol),
        beater(other_protocol),
        beater(Set::of_words([0, 0, 3, 0], [0, 0, 3, 0])),
        leads,
        beater(other_protocol),
        beater(Set::of_words([0, 0, 6, 0], [0, 0, 4, 0])),
        beater(other_protocol),
    ];
    fabric(&[edge(1, 1), edge(1, 2)], &[], &entries)
}

/// Worked by hand. Taking entry 3 up is unit 1; it passes 0 and 1 over, and 2 cuts
/// it with unit 4. The first part passes 4 over, 5 cuts it with unit 6, and it
/// passes 6 over: the first find. The second part passes all three over, the last
/// with unit 10.
#[test]
fn a_budget_ends_anywhere() {
    let mut made = some_are_passed_over();
    let isolated = [0, 10];
    let finds = [
        [0x6000_1001, 0x7000_0003, 0, 0, 6, 0xff, 0, 0, 0, 6],
        [0x6000_1001, 0x7000_0003, 0, 0, 3, 0xff, 0, 0, 2, 6],
    ]
    .concat();
    is_enough_from(10, VERDICT, &made, 96, &isolated);
    is_enough_from(10, LIST, &made, 4 * finds.len(), &finds);
    made.edges[0].group = 2;
    let reached = [1, 7, 1, 1, 0, 0, 0, 6, 3];
    is_enough_from(7, VERDICT, &made, 96, &reached);
    is_enough_from(10, LIST, &made, 4 * finds.len(), &finds);
}

/// With less, the area stays as it was; with as much or more, its words begin so.
fn is_enough_from(count: u32, call: Call, fabric: &Fabric, lent: usize, words: &[u32]) {
    let file = write(fabric);
    for budget in 0..count + 2 {
        let asked = wild_query(2, 16, budget);
        let answer = agreed(call, &file, lent, &asked);
        if budget < count {
            assert_eq!(answer, Err((13, 0)));
            assert_eq!(product_alone(call, &file, lent, &asked).1, fresh(lent));
        } else {
            assert!(answer.is_ok_and(|answer| answer.starts_with(words)));
        }
    }
}
