//! Table misses, document 02's 2.7, worked by hand.

mod common;

use common::{answer, filled, lost_of, run_of};
use reference::examples::{
    a_link_end_between_edges, edge, entry, fabric, fabric_f, link, lost_after_two_hops,
    lost_at_once, lost_by_choice, odd_tp_dst, run_query, tp_dst, under_1_3, wild_query,
};
use reference::file::{read, to_le_words, write};
use reference::query::{input, print, LIST, RUN, VERDICT};
use reference::ways::{Packet, Way, DROPPED, LEFT, LOST, TRAVELLING};
use reference::{list, run, verdict, Fabric, OpenFlow, Set};

const EVEN_TP_DST: [u32; 8] = [0, 0, 1, 0, 0, 0, 0, 0];
const ODD_TP_DST: [u32; 8] = [0, 0, 1, 0, 0, 0, 1, 0];
const TP_DST_5: [u32; 8] = [0, 0, 0xffff, 0, 0, 0, 5, 0];
const TP_DST_80: [u32; 8] = [0, 0, 0xffff, 0, 0, 0, 80, 0];

/// At 1 there is one trial, at 2 none. The finds have no word of kind 7.
#[test]
fn lost_with_no_hop() {
    let made = lost_at_once();
    let finds = [&[0x60000001], &EVEN_TP_DST[..], &[0x60000002], &[0; 8]].concat();
    for limit in [1, 16] {
        assert_eq!(lost_of(&made, limit, 1, Set::ALL_WILD), Ok(finds.clone()));
        assert_eq!(lost_of(&made, limit, 0, Set::ALL_WILD), Err((13, 0)));
    }
    let at_2 = [&[0x60000002], &ODD_TP_DST[..]].concat();
    assert_eq!(lost_of(&made, 1, 1, odd_tp_dst()), Ok(at_2));
    let lost = filled(&[2, 0, 1, 0, 5, 6, 8, 9]);
    assert_eq!(run_of(&made, 1, [5, 6, 8, 9]), lost);
}

/// Trials at 1, where entry 0 covers all, at 11 likewise, and at 13, where entry 2
/// doesn't meet; then entry 1 at the stop 12, with two hops left, and entry 0 at
/// the stop 10, with one.
#[test]
fn lost_after_two_hops_with_a_rewrite() {
    let made = lost_after_two_hops();
    let at_2 = [&[0x60000002], &TP_DST_5[..]].concat();
    let behind_links = [&[0x60002001, 0x70000000, 0x70000001], &[0; 8][..]].concat();
    let both = [&at_2[..], &behind_links].concat();
    for (limit, units, finds) in [(1, 3, &at_2), (2, 4, &at_2), (3, 5, &both), (16, 5, &both)] {
        let of = |budget| lost_of(&made, limit, budget, tp_dst(5));
        assert_eq!(of(units), Ok(finds.clone()), "limit {limit}");
        assert_eq!(of(units - 1), Err((13, 0)), "limit {limit}");
    }
    // Nothing is lost with tp_dst 80 but at 2, though all that starts with it is.
    let at_2 = [&[0x60000002], &TP_DST_80[..]].concat();
    assert_eq!(lost_of(&made, 3, 3, tp_dst(80)), Ok(at_2));
    let lost = filled(&[2, 0, 13, 2, 0, 0, 5, 0, 0, 1]);
    assert_eq!(run_of(&made, 3, [0, 0, 80, 0]), lost);
    let travelling = filled(&[3, 0, 13, 2, 0, 0, 5, 0, 0, 1]);
    assert_eq!(run_of(&made, 2, [0, 0, 80, 0]), travelling);
}

/// Its equal, entry 1, isn't tried at 1, since entry 0 leaves nothing. At 11 one
/// trial, at the stop 10 one unit.
#[test]
fn lost_under_one_choice() {
    let made = lost_by_choice();
    let at_2 = [&[0x60000002], &TP_DST_80[..]].concat();
    let by_entry_1 = [&[0x60001001, 0x70000001], &TP_DST_80[..]].concat();
    let finds = [at_2, by_entry_1].concat();
    assert_eq!(lost_of(&made, 2, 3, tp_dst(80)), Ok(finds));
    assert_eq!(lost_of(&made, 2, 2, tp_dst(80)), Err((13, 0)));
    let tied = filled(&[4, 0, 1, 0, 0, 0, 80, 0]);
    assert_eq!(run_of(&made, 2, [0, 0, 80, 0]), tied);
    assert_eq!(fates_of(&made, 2), [LEFT, LOST]);
    assert_eq!(fates_of(&under_1_3(made), 2), [LEFT, DROPPED]);
}

/// The fates of a packet from 1 with tp_dst 80, under every choice.
fn fates_of(fabric: &Fabric, limit: u32) -> Vec<u32> {
    let packet = Packet {
        fabric,
        start: 1,
        header: 80 << 32,
        limit,
    };
    let ends = packet.ends(10).unwrap();
    ends.iter().map(|end| end.fate.unwrap()).collect()
}

/// The link's end 7 comes between the edges 5 and 20, and with it all that lies
/// behind it.
#[test]
fn in_rising_order() {
    let made = a_link_end_between_edges();
    let at_5 = [&[0x60000005], &EVEN_TP_DST[..]].concat();
    let over_the_link = [&[0x60001005, 0x70000000], &ODD_TP_DST[..]].concat();
    let at_20 = [&[0x60000014], &[0; 8][..]].concat();
    let all = [&at_5[..], &over_the_link, &at_20].concat();
    assert_eq!(lost_of(&made, 2, 2, Set::ALL_WILD), Ok(all));
    assert_eq!(lost_of(&made, 2, 1, Set::ALL_WILD), Err((13, 0)));
    let at_once = [at_5, at_20].concat();
    assert_eq!(lost_of(&made, 1, 1, Set::ALL_WILD), Ok(at_once));
}

/// Entry 0 leaves two parts. The first doesn't meet entry 1, which has a higher
/// priority, and goes on to entry 2; the second is covered by it. Four trials.
#[test]
fn every_priority_carves_in_file_order() {
    let of = |care, value| Set::of_words([0, 0, care, 0], [0, 0, value, 0]);
    let mut entries = [entry(1, 1, 0), entry(9, 1, 0), entry(5, 1, 0)];
    entries[0].matching = of(3, 3);
    entries[1].matching = of(2, 2);
    entries[2].matching = of(4, 4);
    let made = fabric(&[edge(1, 1)], &[], &entries);
    let find = [&[0x60000001], &[0, 0, 6, 0, 0, 0, 0, 0][..]].concat();
    assert_eq!(lost_of(&made, 1, 4, Set::ALL_WILD), Ok(find));
    assert_eq!(lost_of(&made, 1, 3, Set::ALL_WILD), Err((13, 0)));
}

/// A port that is neither an edge nor a link's end makes no unit, and nor do the
/// ports themselves; without an edge there is no find.
#[test]
fn ports_that_count() {
    let entries = [entry(1, 12, 2), entry(1, 11, 2)];
    let made = fabric(&[], &[link(10, 11)], &entries);
    assert_eq!(lost_of(&made, 16, 1, Set::ALL_WILD), Ok(vec![]));
    assert_eq!(lost_of(&made, 16, 0, Set::ALL_WILD), Err((13, 0)));
    let empty = Fabric::default();
    assert_eq!(lost_of(&empty, 16, 0, Set::ALL_WILD), Ok(vec![]));
}

/// A link back to a port's own switch: packets are lost after each number of hops
/// below the limit.
#[test]
fn fewer_hops_than_the_limit() {
    let mut entries = [entry(1, 1, 10), entry(1, 11, 10)];
    entries[0].matching = odd_tp_dst();
    entries[1].matching = tp_dst(3);
    let made = fabric(&[edge(1, 1)], &[link(10, 11)], &entries);
    let hops = |limit| {
        let words = lost_of(&made, limit, 1000, odd_tp_dst()).unwrap();
        let first_words = words.iter().filter(|&&word| word >> 28 == 6);
        let mut hops: Vec<u32> = first_words.map(|word| word >> 12 & 0xffff).collect();
        hops.dedup();
        hops
    };
    // What has tp_dst 3 goes round without end; the rest is lost behind the link.
    assert_eq!(hops(1), []);
    assert_eq!(hops(2), [1]);
    assert_eq!(hops(16), [1]);
    let mut leaking = made;
    leaking.entries[1].rewrite = reference::Rewrite::to(tp_dst(5));
    let lost = filled(&[2, 0, 11, 2, 0, 0, 5, 0, 0, 1]);
    assert_eq!(run_of(&leaking, 3, [0, 0, 3, 0]), lost);
    let travelling = filled(&[3, 0, 11, 2, 0, 0, 5, 0, 0, 1]);
    assert_eq!(run_of(&leaking, 2, [0, 0, 3, 0]), travelling);
    let find = |limit| {
        let words = lost_of(&leaking, limit, 1000, tp_dst(5)).unwrap();
        words.iter().filter(|&&word| word == 0x60002001).count()
    };
    assert_eq!((find(2), find(3)), (0, 1));
}

/// Fate 1 and the in-port; hops, header and entries as they came. At the limit
/// fate 3, as before.
#[test]
fn dropped_under_1_3() {
    let at_once = filled(&[1, 0, 1, 0, 5, 6, 8, 9]);
    assert_eq!(run_of(&under_1_3(lost_at_once()), 1, [5, 6, 8, 9]), at_once);
    let far = under_1_3(lost_after_two_hops());
    let dropped = filled(&[1, 0, 13, 2, 0, 0, 5, 0, 0, 1]);
    assert_eq!(run_of(&far, 3, [0, 0, 80, 0]), dropped);
    let travelling = filled(&[3, 0, 13, 2, 0, 0, 5, 0, 0, 1]);
    assert_eq!(run_of(&far, 2, [0, 0, 80, 0]), travelling);
    let tied = filled(&[4, 0, 1, 0, 0, 0, 80, 0]);
    assert_eq!(run_of(&under_1_3(lost_by_choice()), 2, [0, 0, 80, 0]), tied);
}

/// "For a verdict, and under 1.3, target 0 still fails question 8."
#[test]
fn target_0_is_refused() {
    for made in [lost_at_once(), lost_after_two_hops(), Fabric::default()] {
        let (old, new) = (write(&made), write(&under_1_3(made)));
        let mut bad = wild_query(0, 17, 0);
        bad.value[3] = 1;
        for asked in [wild_query(0, 16, 99), bad] {
            for lent in [0, 96, 4000] {
                assert_eq!(answer(verdict, &old, lent, &asked), Err((8, 0)));
                assert_eq!(answer(verdict, &new, lent, &asked), Err((8, 0)));
                assert_eq!(answer(list, &new, lent, &asked), Err((8, 0)));
            }
        }
        assert_eq!(answer(list, &old, 4000, &bad), Err((9, 0)));
        let from_0 = run_query(0, 16, [0; 4]);
        assert_eq!(answer(run, &old, 96, &from_0), Err((11, 0)));
    }
    // A target whose low bits are 0 is none.
    for port in [4096, 65_536, 1 << 31] {
        let asked = wild_query(port, 16, 99);
        assert_eq!(answer(list, &fabric_f(), 4000, &asked), Err((8, 0)));
    }
}

/// "Bit 27 of the start word chooses OpenFlow 1.3 over 1.0."
#[test]
fn the_start_word() {
    let (old, new) = (lost_at_once(), under_1_3(lost_at_once()));
    assert_eq!(to_le_words(&write(&old))[0], 0x10010026);
    assert_eq!(to_le_words(&write(&new))[0], 0x18010026);
    assert_eq!(
        to_le_words(&write(&old))[1..],
        to_le_words(&write(&new))[1..]
    );
    for made in [old, new] {
        assert_eq!(read(&write(&made)), Ok(made));
    }
    assert_eq!(read(&fabric_f()).unwrap().openflow, OpenFlow::V1_0);
}

#[test]
fn the_program_prints_it() {
    let of = |call, fabric: &Fabric| print(&input(call, &wild_query(0, 1, 1), &write(fabric)));
    let (old, new) = (lost_at_once(), under_1_3(lost_at_once()));
    let words = "60000001 00000000 00000000 00000001 00000000 00000000 00000000 00000000 00000000 \
                 60000002 00000000 00000000 00000000 00000000 00000000 00000000 00000000 00000000";
    let expected = format!("ok 18\n{}\n", words.replace(' ', "\n"));
    assert_eq!(of(LIST, &old), expected);
    assert_eq!(of(LIST, &new), "no 8 at 0\n");
    assert_eq!(of(VERDICT, &old), "no 8 at 0\n");
    let run = |fabric| print(&input(RUN, &run_query(2, 1, [0; 4]), &write(fabric)));
    assert!(run(&old).starts_with("ok 24\n00000002\n00000000\n00000002\n00000000\n"));
    assert!(run(&new).starts_with("ok 24\n00000001\n00000000\n00000002\n00000000\n"));
}

/// A way ends where no entry may take the packet on, and not before.
#[test]
fn a_way_is_followed_to_where_it_is_lost() {
    let made = lost_after_two_hops();
    let follow = |limit, entries: &[u32]| {
        let packet = Packet {
            fabric: &made,
            start: 1,
            header: 0,
            limit,
        };
        packet.follow(entries)
    };
    let fate_and_port = |way: Option<Way>| way.map(|way| (way.fate, way.port));
    assert_eq!(fate_and_port(follow(3, &[])), Some((None, 1)));
    assert_eq!(fate_and_port(follow(3, &[0])), Some((None, 11)));
    assert_eq!(fate_and_port(follow(3, &[0, 1])), Some((Some(LOST), 13)));
    let travelling = Some((Some(TRAVELLING), 13));
    assert_eq!(fate_and_port(follow(2, &[0, 1])), travelling);
    assert_eq!(follow(3, &[0, 1, 2]), None);
    let asked = |port, set| wild_query(port, 3, 0).about(set);
    let lost = follow(3, &[0, 1]).unwrap();
    assert!(lost.arrives(&asked(0, tp_dst(5))));
    assert!(!lost.arrives(&asked(0, tp_dst(80))));
    assert!(!lost.arrives(&asked(2, tp_dst(5))));
    let on_the_way = follow(3, &[0]).unwrap();
    assert!(!on_the_way.arrives(&asked(0, Set::ALL_WILD)));
}
