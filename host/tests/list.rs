//! The list of the static library against the reference, word by word.

mod common;

use common::{agreed, checks, reference_alone, transfers, Seen, LIST};
use reference::brute::{finds, Find};
use reference::examples::{
    edge, entry, fabric, fabric_f, many_finds, nw_dst, nw_src, one_reply, replies_behind_a_link,
    to_tp_dst, tp_dst, wild_query,
};
use reference::file::write;
use reference::random::{
    any, audited, campus, cases, deep_ring, list_query, random_denies, random_transit, replies,
    routed_campus, twenty_denies, Rng,
};
use reference::{Entry, Query, Rewrite, Set, Transfer};

/// Room for any list of these tests.
const ROOM: usize = 1 << 20;

/// How many bytes the list needs, if it gets an answer.
fn needed(file: &[u8], asked: &Query, room: usize) -> Option<usize> {
    let (code, _) = reference_alone(LIST, file, room, asked);
    (code % 256 == 0).then_some(4 * (code / 256) as usize)
}

/// One word short, one byte short, exact, one byte over, and far over.
fn check_room(file: &[u8], asked: &Query, bytes: usize) {
    for lent in [bytes, bytes + 1, bytes + 4, bytes + 99] {
        assert!(agreed(LIST, file, lent, asked).is_ok());
    }
    for short in [1, 4, bytes] {
        if let Some(lent) = bytes.checked_sub(short).filter(|_| bytes > 0) {
            assert_eq!(agreed(LIST, file, lent, asked), Err((12, 0)));
        }
    }
}

#[test]
fn random_fabrics() {
    let [listed, far, twice, moved, lost]: [Seen; 5] = Default::default();
    cases(4_000_000, 8000, |rng| {
        let fabric = any(rng);
        let file = write(&fabric);
        for _ in 0..3 {
            let asked = list_query(rng, &fabric, 20_000);
            if let Some(bytes) = needed(&file, &asked, ROOM) {
                check_room(&file, &asked, bytes);
                let words = agreed(LIST, &file, bytes, &asked).unwrap();
                listed.add((bytes > 0).into());
                far.add((bytes > 10_000).into());
                let finds = finds(&words).unwrap();
                twice.add(has_a_pair_twice(&finds).into());
                let moves = |find: &Find| transfers(&fabric, &find.entries);
                moved.add(finds.iter().any(moves).into());
                lost.add((bytes > 0 && asked.is_of_the_lost()).into());
            } else {
                let _ = agreed(LIST, &file, rng.below(100), &asked);
            }
        }
    });
    listed.at_least(2000);
    far.at_least(50);
    twice.at_least(200);
    moved.at_least(1000);
    lost.at_least(1000);
}

/// Whether two of the first finds have a pair in common, by different ways.
fn has_a_pair_twice(finds: &[Find]) -> bool {
    let finds = &finds[..finds.len().min(50)];
    let mut pairs = finds.iter().flat_map(|a| finds.iter().map(move |b| (a, b)));
    pairs.any(|(a, b)| a.port == b.port && a.entries != b.entries && a.set.meets(&b.set))
}

#[test]
fn damaged_files() {
    checks::damaged_files(LIST, 4_100_000, |rng| rng.below(2000));
}

/// The list's count is the whole trace's, whatever the verdict's is.
#[test]
fn budgets_around_the_count() {
    let is_enough = |file: &_, asked: &_| agreed(LIST, file, ROOM / 16, asked) != Err((13, 0));
    let seeds = (4_200_000, 3000);
    let counted = checks::budgets_around_the_count(LIST, seeds, 20_000, least_budget, is_enough);
    assert!(counted == 1 || counted > 1500);
}

/// The least budget that the reference's list is answered with, up to the
/// query's.
fn least_budget(file: &[u8], asked: &Query) -> Option<u32> {
    let does = |budget| needed(file, &Query { budget, ..*asked }, ROOM).is_some();
    if !does(asked.budget) {
        return None;
    }
    let (mut low, mut high) = (0, asked.budget);
    while low < high {
        let middle = low + (high - low) / 2;
        match does(middle) {
            true => high = middle,
            false => low = middle + 1,
        }
    }
    Some(low)
}

#[test]
fn long_lists() {
    for (benchmark, room) in [
        (campus(), ROOM),
        (deep_ring(), ROOM),
        (replies(), ROOM),
        (routed_campus(), ROOM),
        (random_denies(), ROOM),
        (random_transit(), ROOM),
        (audited(), ROOM),
        (twenty_denies(), 48 << 20),
    ] {
        let (file, asked) = (write(&benchmark.fabric), benchmark.query);
        let bytes = needed(&file, &asked, room).unwrap();
        assert!(agreed(LIST, &file, bytes + 1, &asked).is_ok());
        assert_eq!(agreed(LIST, &file, bytes - 1, &asked), Err((12, 0)));
        assert_eq!(agreed(LIST, &file, 96, &asked), Err((12, 0)));
    }
}

/// Finds of ten and of eleven words, so that a list may end anywhere.
#[test]
fn lists_around_65_536_bytes() {
    for (near, far) in (1630..1638).flat_map(|near| [0, 1, 4, 5, 9].map(|far| (near, far))) {
        let file = write(&many_finds(near, far));
        let asked = wild_query(1, 2, 100);
        let bytes = needed(&file, &asked, ROOM).unwrap();
        assert_eq!(bytes as u32, 40 * near + 44 * far);
        check_room(&file, &asked, bytes);
        let answer = agreed(LIST, &file, 65_536, &asked);
        assert_eq!(answer.is_ok(), bytes <= 65_536);
    }
}

#[test]
fn the_least_stack_is_enough() {
    assert_eq!(checks::with_little_stack(LIST, ROOM) % 256, 0);
}

#[test]
fn calls_at_the_same_time() {
    checks::calls_at_the_same_time(LIST, (4_400_000, 400), 4000);
}

/// No find, no word, no room needed.
#[test]
fn an_empty_list_needs_no_room() {
    assert_eq!(
        agreed(LIST, &fabric_f(), 0, &wild_query(1, 1, 0)),
        Ok(vec![])
    );
}

#[test]
fn every_bit_matters_alike() {
    checks::every_bit_matters_alike(LIST, 2000, &wild_query(2, 16, 9));
}

#[test]
fn numbers_out_of_range() {
    checks::numbers_out_of_range(LIST, wild_query(2, 16, 2), 8);
    checks::values_outside_the_care(LIST, wild_query(2, 16, 2));
}

/// 13 before 12.
#[test]
fn questions_8_to_13_in_turn() {
    checks::questions_in_turn(
        LIST,
        wild_query(2, 16, 2),
        80,
        &[
            (8, |asked, _| asked.port = 3),
            (9, |asked, _| asked.limit = 0),
            (10, |asked, _| asked.value[3] = 0x8000_0000),
            (13, |asked, _| asked.budget = 1),
            (12, |_, lent| *lent = 79),
        ],
    );
}

/// E2, E4 and E6 of document 01.
#[test]
fn checked_examples() {
    let of = |limit, budget| agreed(LIST, &fabric_f(), 80, &wild_query(2, limit, budget));
    let e2 = [
        0x60001001, 0x70000001, 0, 0xffffffff, 2, 0, 0, 0x0a000002, 2, 0, //
        0x60001001, 0x70000001, 0, 0xffffffff, 3, 0, 0, 0x0a000002, 0, 0,
    ];
    assert_eq!(of(1, 2), Ok(e2.to_vec()));
    assert_eq!(of(1, 1), Err((13, 0)));
    assert_eq!(of(17, 2), Err((9, 0)));
    assert!(of(16, 2).is_ok());
}

/// E8 to E10: what is undone of one entry that rewrites tp_dst to 5.
#[test]
fn undoing_a_rewrite() {
    let list = |matching: Set, exit: [u32; 2]| {
        let only = Entry {
            matching,
            rewrite: to_tp_dst(5),
            ..entry(1, 1, 2)
        };
        let file = write(&fabric(&[edge(1, 1), edge(2, 2)], &[], &[only]));
        let mut asked = wild_query(2, 1, 1);
        [asked.care[2], asked.value[2]] = exit;
        agreed(LIST, &file, 96, &asked).unwrap()
    };
    let find = |set: [u32; 8]| [&[0x60001001, 0x70000000], &set[..]].concat();
    assert_eq!(list(Set::ALL_WILD, [0xffff, 5]), find([0; 8]));
    assert_eq!(list(Set::ALL_WILD, [0xffff, 6]), []);
    let tp_dst_80 = find([0, 0, 0xffff, 0, 0, 0, 80, 0]);
    assert_eq!(list(tp_dst(80), [0, 0]), tp_dst_80);
}

/// Document 02's 2.5: what is undone of one entry that copies or swaps, and of one
/// that then writes nw_src 10.0.0.254.
#[test]
fn undoing_a_transfer() {
    let (copy, swap, none) = (Transfer::Copy, Transfer::Swap, Rewrite::NONE);
    let gateway = Rewrite::to(nw_src(u32::MAX, 0x0a0000fe));
    let to_10_1 = nw_dst(0xffff0000, 0x0a010000);
    let to_11 = nw_dst(0xff000000, 0x0b000000);
    let from_10 = |to: Set| to.intersect(&nw_src(0xff000000, 0x0a000000)).unwrap();
    let from_10_1 = [0xffff0000, 0, 0, 0, 0x0a010000, 0, 0, 0];
    let from_11_to_10 = [0xff000000, 0xff000000, 0, 0, 0x0b000000, 0x0a000000, 0, 0];
    for (transfer, rewrite, exit, found) in [
        (copy, none, to_10_1, Some(from_10_1)),
        (copy, none, from_10(to_10_1), Some(from_10_1)),
        (copy, none, from_10(to_11), None),
        (swap, none, from_10(to_11), Some(from_11_to_10)),
        (swap, gateway, from_10(to_10_1), Some(from_10_1)),
        (swap, gateway, nw_src(u32::MAX, 0x0a0000fd), None),
    ] {
        let asked = wild_query(2, 1, 1).about(exit);
        let words = agreed(LIST, &write(&one_reply(transfer, rewrite)), 40, &asked).unwrap();
        let find = found.map(|set| [&[0x60001001, 0x70000000], &set[..]].concat());
        assert_eq!(words, find.unwrap_or_default(), "{transfer:?}, {exit:x?}");
    }
}

/// Six units, and two finds of twelve words.
#[test]
fn replies_on_the_way() {
    let file = write(&replies_behind_a_link());
    let of = |budget, lent| agreed(LIST, &file, lent, &wild_query(2, 3, budget));
    assert_eq!(of(6, 96).map(|words| words.len()), Ok(24));
    assert_eq!(of(6, 95), Err((12, 0)));
    assert_eq!(of(5, 96), Err((13, 0)));
}

/// Any room, from none up.
#[test]
fn every_length_of_area() {
    let mut rng = Rng::new(4_300_000);
    let fabric = reference::random::wild_under_denies(&mut rng);
    let file = write(&fabric);
    for edge in &fabric.edges {
        let asked = wild_query(u32::from(edge.port), 16, 2000);
        for lent in 0..1200 {
            let _ = agreed(LIST, &file, lent, &asked);
        }
    }
}
