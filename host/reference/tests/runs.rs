//! Packet runs worked by hand, one for each fate and more.

mod common;

use common::{answer, filled, Seen};
use reference::calls;
use reference::examples::{edge, entry, fabric, link, run_query, to_tp_dst, tp_dst};
use reference::file::write;
use reference::random::{any, cases_of, packet, source::Rng};
use reference::ways::{Packet, DROPPED, LOST, TIED};
use reference::{run, Bits, Entry, Fabric, Header, Set, Transfer, Wide};

/// Edges 1 and 2; links 10 to 11, 12 to 13, 14 to 15.
/// At 1: entry 2 sends tp_dst 80 to 10, as 81; entry 4 sends what has two bits
/// of tp_dst, 0x30, to 14; entry 5 sends the rest to 10.
/// At 11: entry 1 drops tp_dst 22, entry 0 sends the rest on to 12.
/// At 13: entry 3 sends tp_dst 81 out at 2, as 90; nothing else is held.
/// At 15 and 2 there is no entry.
fn chain() -> Fabric {
    let mut entries = [
        entry(5, 11, 12),
        entry(6, 11, 0),
        entry(9, 1, 10),
        entry(0, 13, 2),
        entry(9, 1, 14),
        entry(8, 1, 10),
    ];
    entries[1].matching = tp_dst(22);
    entries[2].matching = tp_dst(80);
    entries[2].rewrite = to_tp_dst(81);
    entries[3].matching = tp_dst(81);
    entries[3].rewrite = to_tp_dst(90);
    entries[4].matching = Set {
        care: 1 << 37 | 1 << 36,
        value: 1 << 37 | 1 << 36,
    };
    let links = [link(10, 11), link(12, 13), link(14, 15)];
    fabric(&[edge(1, 1), edge(2, 2)], &links, &entries)
}

fn words(head: [u32; 8], entries: &[u32]) -> Vec<u32> {
    filled(&[&head, entries].concat())
}

fn run_of(limit: u32, start: u32, header: [u32; 4]) -> Vec<u32> {
    let file = write(&chain());
    answer(run, &file, 96, &run_query(start, limit, header)).unwrap()
}

#[test]
fn left() {
    let header = [7, 8, 80, 9];
    let expected = words([0, 0, 2, 3, 7, 8, 90, 9], &[2, 0, 3]);
    assert_eq!(run_of(16, 1, header), expected);
    // The exit at the last hop is an exit.
    assert_eq!(run_of(3, 1, header), expected);
}

#[test]
fn still_travelling_where_the_limit_ends() {
    let header = [7, 8, 80, 9];
    let after_two = words([3, 0, 13, 2, 7, 8, 81, 9], &[2, 0]);
    assert_eq!(run_of(2, 1, header), after_two);
    let after_one = words([3, 0, 11, 1, 7, 8, 81, 9], &[2]);
    assert_eq!(run_of(1, 1, header), after_one);
}

#[test]
fn dropped_at_an_in_port() {
    let expected = words([1, 0, 11, 2, 0, 0, 22, 0], &[5, 1]);
    assert_eq!(run_of(16, 1, [0, 0, 22, 0]), expected);
    // The drop at the last hop is a drop.
    assert_eq!(run_of(2, 1, [0, 0, 22, 0]), expected);
}

#[test]
fn lost_where_no_entry_holds() {
    let expected = words([2, 0, 13, 2, 0, 0, 1, 0], &[5, 0]);
    assert_eq!(run_of(16, 1, [0, 0, 1, 0]), expected);
    // With a limit of two hops it is still travelling to there.
    let before = words([3, 0, 13, 2, 0, 0, 1, 0], &[5, 0]);
    assert_eq!(run_of(2, 1, [0, 0, 1, 0]), before);
    // Nothing stands at 15; nothing at the start.
    let at_15 = words([2, 0, 15, 1, 0, 0, 0x30, 0], &[4]);
    assert_eq!(run_of(2, 1, [0, 0, 0x30, 0]), at_15);
    let before_15 = words([3, 0, 15, 1, 0, 0, 0x30, 0], &[4]);
    assert_eq!(run_of(1, 1, [0, 0, 0x30, 0]), before_15);
    let at_start = words([2, 0, 2, 0, 1, 2, 3, 4], &[]);
    assert_eq!(run_of(1, 2, [1, 2, 3, 4]), at_start);
}

#[test]
fn left_at_a_port_that_is_no_edge() {
    let only = fabric(&[edge(1, 1)], &[link(10, 11)], &[entry(0, 1, 11)]);
    let got = answer(run, &write(&only), 96, &run_query(1, 16, [0; 4]));
    assert_eq!(got, Ok(words([0, 0, 11, 1, 0, 0, 0, 0], &[0])));
}

/// Whichever stands first, and with a third above or below.
#[test]
fn two_equals_are_a_tie() {
    let edges = [edge(1, 1)];
    let run_of = |entries: &[Entry]| {
        let file = write(&fabric(&edges, &[], entries));
        answer(run, &file, 96, &run_query(1, 1, [1, 2, 3, 4])).unwrap()
    };
    let (a, b) = (entry(4, 1, 2), entry(4, 1, 3));
    let (lower, higher) = (entry(3, 1, 0), entry(5, 1, 0));
    let tied = words([4, 0, 1, 0, 1, 2, 3, 4], &[]);
    for entries in [[a, b, lower], [b, a, lower], [lower, a, b], [a, lower, b]] {
        assert_eq!(run_of(&entries), tied);
    }
    for (entries, taker) in [
        ([a, b, higher], 2),
        ([a, higher, b], 1),
        ([higher, a, b], 0),
    ] {
        let dropped = words([1, 0, 1, 1, 1, 2, 3, 4], &[taker]);
        assert_eq!(run_of(&entries), dropped);
    }
    // Elsewhere, or for other headers, an equal is none.
    let mut narrow = b;
    narrow.matching = tp_dst(80);
    for other in [narrow, entry(4, 9, 3)] {
        let left = words([0, 0, 2, 1, 1, 2, 3, 4], &[0]);
        assert_eq!(run_of(&[a, other]), left);
    }
}

/// Priority counts also against an entry with no wild bit.
#[test]
fn an_exact_match_has_no_privilege() {
    let mut exact = entry(3, 1, 2);
    exact.matching = Set::only(5);
    let file = write(&fabric(&[edge(1, 1)], &[], &[exact, entry(4, 1, 0)]));
    let got = answer(run, &file, 96, &run_query(1, 1, [0, 0, 0, 5]));
    assert_eq!(got, Ok(words([1, 0, 1, 1, 0, 0, 0, 5], &[1])));
}

#[test]
fn sixteen_hops_round_a_ring() {
    let entries = [entry(0, 1, 10), entry(0, 11, 12), entry(0, 13, 10)];
    let links = [link(10, 11), link(12, 13)];
    let file = write(&fabric(&[edge(1, 1)], &links, &entries));
    let got = answer(run, &file, 96, &run_query(1, 16, [0; 4]));
    let taken = [0, 1, 2, 1, 2, 1, 2, 1, 2, 1, 2, 1, 2, 1, 2, 1];
    assert_eq!(got, Ok(words([3, 0, 13, 16, 0, 0, 0, 0], &taken)));
}

#[test]
fn runs_agree_with_naive_forwarding() {
    agrees_with_naive_forwarding::<Header>((10_000, 2000));
}

#[test]
fn runs_agree_with_naive_forwarding_in_version_2() {
    agrees_with_naive_forwarding::<Wide>((1_010_000, 2000));
}

/// Against the naive forwarding, over all kinds of fabrics; and by all ends,
/// where these are few enough to be looked at.
fn agrees_with_naive_forwarding<B: Bits>(seeds: (u64, u64)) {
    let [tied, moved, lost, missed]: [Seen; 4] = Default::default();
    cases_of(seeds.0, seeds.1, |rng: &mut Rng<B>| {
        let fabric = any(rng);
        let file = write(&fabric);
        for _ in 0..20 {
            let query = packet(rng, &fabric);
            let Ok(words) = answer(calls::run, &file, 115, &query) else {
                continue;
            };
            let packet = Packet::asked(&fabric, &query);
            let naive = packet.run();
            assert_eq!(words, naive.words().unwrap());
            if let Some(ends) = packet.ends(1000) {
                assert_eq!(packet.run_by(&ends), Some(naive));
            }
            tied.count(words[0] == TIED);
            let transfer = |&entry: &u32| fabric.entries[entry as usize].transfer;
            let taken = &words[4 + B::WORDS..][..words[3] as usize];
            moved.count(taken.iter().any(|entry| transfer(entry) != Transfer::None));
            let drops = |&entry: &u32| fabric.entries[entry as usize].out_port == 0;
            lost.count(words[0] == LOST);
            missed.count(words[0] == DROPPED && !taken.last().is_some_and(drops));
        }
    });
    for seen in [tied, moved, lost, missed] {
        seen.at_least(2000);
    }
}
