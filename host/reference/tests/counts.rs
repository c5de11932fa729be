//! The count, the order of finds, budgets and room, against the slow trace on
//! strings of 0, 1 and x.

mod common;

use common::{answer, Seen};
use reference::calls::{self, answer_words, Answer, Query};
use reference::examples::{edge, entry, fabric, link, tp_dst, wild_query};
use reference::fabric::{Entry, Fabric};
use reference::file::write;
use reference::random::{
    any, audited, campus, cases_of, crowded, deep_ring, every_beater_meets, leaky_ring, list_query,
    no_beater_meets, random_denies, replies, routed_campus, small_query, source::Rng, Benchmark,
};
use reference::ternary::{self, Event, Ternary};
use reference::{list, verdict, Bits, Header, OpenFlow, Set, Wide, Words};

/// Beyond this a case is skipped.
const MOST_EVENTS: usize = 10_000;

/// The verdict and the list for some budgets around their counts.
fn check_budgets<B: Bits>(fabric: &Fabric<B>, asked: &Query<B::Words>, events: &[Event]) {
    let file = write(fabric);
    let unbound = Query {
        budget: u32::MAX,
        ..*asked
    };
    let judged = ternary::verdict(fabric, &unbound, events);
    assert_eq!(judged.is_none(), asked.is_of_the_lost());
    let verdict_units = judged.map_or(0, |words| words[1]);
    let all_units = events.iter().filter(|event| **event == Event::Unit).count() as u32;
    for count in [verdict_units, all_units, 0, asked.budget] {
        for budget in [count.saturating_sub(1), count, count.saturating_add(1)] {
            let asked = Query { budget, ..*asked };
            let judged = answer(calls::verdict, &file, 4 * answer_words::<B>(), &asked);
            if asked.is_of_the_lost() {
                assert_eq!(judged, Err((8, 0)));
            } else {
                let expected = ternary::verdict(fabric, &asked, events).ok_or((13, 0));
                assert_eq!(judged, expected);
                assert_eq!(expected.is_ok(), budget >= verdict_units);
            }
            let expected = ternary::list(fabric, &asked, events).ok_or((13, 0));
            assert_eq!(expected.is_ok(), budget >= all_units);
            check_room(&file, &asked, expected);
        }
    }
}

/// Whether it is one for a list: "under 1.0 .. the list accepts target 0".
fn is_in_range<B: Bits>(fabric: &Fabric<B>, asked: &Query<B::Words>) -> bool {
    let is_of_the_lost = asked.port == 0 && fabric.openflow == OpenFlow::V1_0;
    let is_right = is_of_the_lost || fabric.edge(asked.port).is_some();
    is_right && asked.asked().is_proper() && (1..=16).contains(&asked.limit)
}

/// The list with room for all its words, and with a byte less.
fn check_room<W: Words>(file: &[u8], asked: &Query<W>, expected: Answer) {
    let bytes = 4 * expected.as_ref().map_or(0, Vec::len);
    let of = |lent| answer(calls::list, file, lent, asked);
    assert_eq!(of(bytes + 5), expected);
    assert_eq!(of(bytes), expected);
    if bytes > 0 {
        assert_eq!(of(bytes - 1), Err((12, 0)));
        assert_eq!(of(bytes - 4), Err((12, 0)));
    }
}

#[test]
fn every_budget_and_room() {
    budgets_and_rooms::<Header>((700_000, 5000));
}

#[test]
fn every_budget_and_room_in_version_2() {
    budgets_and_rooms::<Wide>((1_700_000, 2000));
}

/// In half of the cases there is a unit; in one of five a copy is undone that joins
/// wanted bits, and many are lists of the lost.
fn budgets_and_rooms<B: Bits>(seeds: (u64, u64)) {
    let [compared, agree, disagree, lost]: [Seen; 4] = Default::default();
    let undo = |entry: &Entry<B>, wanted: &Ternary| {
        let joined = ternary::joins_agree(entry, wanted);
        agree.count(joined == Some(true));
        disagree.count(joined == Some(false));
        ternary::undo(entry, wanted)
    };
    cases_of(seeds.0, seeds.1, |rng: &mut Rng<B>| {
        let fabric = any(rng);
        let asked = list_query(rng, &fabric, 2000);
        if !is_in_range(&fabric, &asked) {
            assert!(answer(calls::verdict, &write(&fabric), 200, &asked).is_err());
            assert!(answer(calls::list, &write(&fabric), 200, &asked).is_err());
            return;
        }
        if let Some(events) = ternary::events_by(undo, &fabric, &asked, MOST_EVENTS) {
            check_budgets(&fabric, &asked, &events);
            compared.count(events.contains(&Event::Unit));
            lost.count(asked.is_of_the_lost() && events.contains(&Event::Unit));
        }
    });
    let number = seeds.1 as u32;
    compared.at_least(number / 2);
    agree.at_least(number / 5);
    disagree.at_least(number / 5);
    lost.at_least(number / 13);
}

#[test]
fn the_lost_of_leaky_rings() {
    losses_of_rings::<Header>((720_000, 1000));
}

#[test]
fn the_lost_of_leaky_rings_in_version_2() {
    losses_of_rings::<Wide>((1_720_000, 1000));
}

/// Lists of the lost alone, on rings where packets are lost after many hops.
fn losses_of_rings<B: Bits>(seeds: (u64, u64)) {
    let [compared, far]: [Seen; 2] = Default::default();
    cases_of(seeds.0, seeds.1, |rng: &mut Rng<B>| {
        let mut made = leaky_ring(rng);
        made.fabric.openflow = OpenFlow::V1_0;
        let asked = small_query(rng, &made).of_the_lost();
        let Some(events) = ternary::events(&made.fabric, &asked, MOST_EVENTS) else {
            return;
        };
        check_budgets(&made.fabric, &asked, &events);
        compared.count(events.len() > 20);
        let is_far = |event: &Event| match event {
            Event::Unit => false,
            Event::Find { entries, .. } => entries.len() >= 4,
        };
        far.count(events.iter().any(is_far));
    });
    compared.at_least(500);
    far.at_least(100);
}

#[test]
fn crowded_in_ports() {
    crowds::<Header>((710_000, 1000));
}

#[test]
fn crowded_in_ports_in_version_2() {
    crowds::<Wide>((1_710_000, 1000));
}

/// Many beaters, of which few meet.
fn crowds<B: Bits>(seeds: (u64, u64)) {
    let compared = Seen::default();
    cases_of(seeds.0, seeds.1, |rng: &mut Rng<B>| {
        let made = crowded(rng);
        let asked = small_query(rng, &made);
        if !is_in_range(&made.fabric, &asked) {
            return;
        }
        if let Some(events) = ternary::events(&made.fabric, &asked, MOST_EVENTS) {
            check_budgets(&made.fabric, &asked, &events);
            compared.count(events.len() > 20);
        }
    });
    compared.at_least(500);
}

/// The benchmarks that aren't counted by hand, but for the largest.
#[test]
fn benchmarks_are_counted() {
    let smaller = [
        campus(),
        routed_campus(),
        deep_ring(),
        replies(),
        random_denies(),
    ];
    let descents = [every_beater_meets(), no_beater_meets(), audited()];
    for Benchmark { fabric, query, .. } in smaller.into_iter().chain(descents) {
        let events = ternary::events(&fabric, &query, 200_000).unwrap();
        check_budgets(&fabric, &query, &events);
    }
}

/// Worked by hand: the target 2 has two entries. Entry 1, at 11, has beater 0,
/// which doesn't meet it; it is one unit, a trial, and goes on to 10, where
/// entry 3 is one unit and comes from edge 1. Entry 2, at the dead end 20, is
/// one unit and no more.
#[test]
fn units_by_hand() {
    let mut entries = [
        entry(5, 11, 0),
        entry(4, 11, 2),
        entry(4, 20, 2),
        entry(1, 1, 10),
    ];
    entries[0].matching = tp_dst(1);
    entries[1].matching = tp_dst(2);
    let made = fabric(&[edge(1, 1), edge(1, 2)], &[link(10, 11)], &entries);
    let file = write(&made);
    let units = |limit| answer(verdict, &file, 96, &wild_query(2, limit, 99)).unwrap()[1];
    assert_eq!(units(2), 4);
    // With one hop the link isn't followed.
    assert_eq!(units(1), 3);
    let listed = answer(list, &file, 48, &wild_query(2, 2, 4)).unwrap();
    let tp_dst_2 = [0, 0, 0xffff, 0, 0, 0, 2, 0];
    let expected = [&[0x60002001, 0x70000003, 0x70000001], &tp_dst_2[..]].concat();
    assert_eq!(listed, expected);
}

/// A part that a beater covers whole leaves nothing, and its unit counts.
#[test]
fn a_covered_part_counts() {
    let entries = [entry(2, 1, 0), entry(3, 1, 0), entry(1, 1, 2)];
    let file = write(&fabric(&[edge(1, 1), edge(2, 2)], &[], &entries));
    let words = answer(verdict, &file, 96, &wild_query(2, 1, 2)).unwrap();
    assert_eq!(words[..4], [0, 2, 0, 0]);
    assert_eq!(
        answer(verdict, &file, 96, &wild_query(2, 1, 1)),
        Err((13, 0))
    );
}

/// In the target's own group, the verdict returns the lowest header of the
/// find's first part outside the port's admitted set.
#[test]
fn foreign_in_the_own_group() {
    let mut made = fabric(&[edge(1, 1), edge(1, 2)], &[], &[entry(1, 1, 2)]);
    made.edges[0].admitted = Set {
        care: 1 << 127 | 1 << 3,
        value: 1 << 3,
    };
    // The target's own admitted set doesn't matter.
    made.edges[1].admitted = Set::only(77);
    let of = |query| answer(verdict, &write(&made), 96, &query).unwrap();
    let words = of(wild_query(2, 1, 1));
    assert_eq!(words[..9], [1, 1, 1, 1, 0x80000000, 0, 0, 0, 0]);
    let mut asked = wild_query(2, 1, 1);
    asked.care[0] = 0x80000000;
    assert_eq!(of(asked)[..8], [1, 1, 1, 1, 0, 0, 0, 0]);
    asked.care[3] = 8;
    asked.value[3] = 8;
    assert_eq!(of(asked)[..2], [0, 1]);
}

/// A packet may come back to the target, its own start.
#[test]
fn the_target_reaches_itself() {
    let made = fabric(
        &[edge(1, 1)],
        &[link(10, 11)],
        &[entry(1, 1, 10), entry(1, 11, 1)],
    );
    let listed = answer(list, &write(&made), 96, &wild_query(1, 16, 9)).unwrap();
    let expected = [&[0x60002001, 0x70000000, 0x70000001], &[0; 8][..]].concat();
    assert_eq!(listed, expected);
}
