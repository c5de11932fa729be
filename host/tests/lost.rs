//! Packets that no entry takes (document 02's 2.7) in the static library, worked by
//! hand: the list of the lost, by target 0, what is refused, and runs under OpenFlow
//! 1.3.

mod common;

use common::checks::{self, refused};
use common::program::printed;
use common::{agreed, LIST, RUN, VERDICT};
use reference::examples::{
    a_link_end_between_edges, edge, entry, fabric, fabric_f, leak_by_choice, link,
    lost_after_two_hops, lost_at_once, lost_by_choice, odd_tp_dst, run_query, tp_dst, under_1_3,
    wild_query,
};
use reference::file::{to_le_words, write};
use reference::query::{input, print};
use reference::set::to_words;
use reference::ways::{DROPPED, LEFT, LOST, TIED, TRAVELLING};
use reference::{Fabric, Query, Set};

/// Every bit flipped, with those of the start among them.
#[test]
fn every_bit_matters_alike() {
    checks::every_bit_matters_alike(LIST, 4000, &wild_query(0, 16, 99));
}

/// Of each start word with bits 31 to 16 as they can be; the count is right.
#[test]
fn every_start_word() {
    let mut file = write(&lost_at_once());
    for upper in 0..=u16::MAX {
        file[2..4].copy_from_slice(&upper.to_le_bytes());
        let answer = agreed(LIST, &file, 72, &wild_query(0, 1, 1));
        match upper {
            0x1001 => assert!(answer.is_ok()),
            0x1801 => assert_eq!(answer, Err((8, 0))),
            _ => assert_eq!(answer, Err((2, 0))),
        }
    }
}

/// Of F: 32 finds at port 1 for each of two parts, and one at port 2, nine words
/// each; three units.
#[test]
fn questions_in_turn() {
    checks::questions_in_turn(
        LIST,
        wild_query(0, 16, 3),
        65 * 36,
        &[
            (8, |asked, _| asked.port = 3),
            (9, |asked, _| asked.limit = 17),
            (10, |asked, _| asked.value[0] = 1),
            (13, |asked, _| asked.budget = 2),
            (12, |_, lent| *lent = 65 * 36 - 1),
        ],
    );
    let words = agreed(LIST, &fabric_f(), 65 * 36, &wild_query(0, 16, 3)).unwrap();
    assert_eq!(words.len(), 65 * 9);
}

/// Under 1.3, question 8 gets the no that comes before all others.
#[test]
fn question_8_comes_first() {
    let (old, new) = (write(&lost_at_once()), write(&under_1_3(lost_at_once())));
    let mut bad = wild_query(0, 99, 0);
    bad.value[0] = 1;
    for lent in [0, 71, 72, 4000] {
        for asked in [bad, wild_query(0, 16, 99)] {
            refused(VERDICT, &old, lent, &asked, 8);
            refused(VERDICT, &new, lent, &asked, 8);
            refused(LIST, &new, lent, &asked, 8);
        }
        refused(LIST, &old, lent, &bad, 9);
    }
}

/// The nine words of a find without a hop, which has no word of kind 7.
fn at_once(port: u32, set: Set) -> Vec<u32> {
    find_words(port, &[], set)
}

fn find_words(port: u32, entries: &[u32], set: Set) -> Vec<u32> {
    let mut words = vec![0x6000_0000 | (entries.len() as u32) << 12 | port];
    words.extend(entries.iter().map(|entry| 0x7000_0000 | entry));
    words.extend(to_words(set.care));
    words.extend(to_words(set.value));
    words
}

/// At 1 all that has an even tp_dst, at 2 all; one unit, at 1.
#[test]
fn lost_with_no_hop() {
    let even = Set {
        value: 0,
        ..odd_tp_dst()
    };
    let expected = [at_once(1, even), at_once(2, Set::ALL_WILD)].concat();
    assert_eq!(expected.len(), 18);
    let file = write(&lost_at_once());
    for limit in [1, 2, 16] {
        let asked = wild_query(0, limit, 1);
        assert_eq!(agreed(LIST, &file, 72, &asked), Ok(expected.clone()));
        refused(LIST, &file, 71, &asked, 12);
        refused(LIST, &file, 72, &wild_query(0, limit, 0), 13);
    }
    // With an asked set, only what is in it when it is lost.
    let asked = wild_query(0, 1, 1).about(odd_tp_dst());
    let at_2 = at_once(2, odd_tp_dst());
    assert_eq!(agreed(LIST, &file, 36, &asked), Ok(at_2));
}

/// Five units: one each at 1, 11 and 13, and then one each for entries 1 and 0. It
/// is tp_dst 5 that is lost, whatever it was; all of it comes from port 1.
#[test]
fn lost_after_two_hops_and_a_rewrite() {
    let file = write(&lost_after_two_hops());
    let list = |limit, budget, asked| {
        let asked = wild_query(0, limit, budget).about(asked);
        agreed(LIST, &file, 2000, &asked)
    };
    let found = find_words(1, &[0, 1], Set::ALL_WILD);
    let expected = [at_once(2, tp_dst(5)), found].concat();
    assert_eq!(expected.len(), 20);
    for limit in [3, 16] {
        assert_eq!(list(limit, 5, tp_dst(5)), Ok(expected.clone()));
        assert_eq!(list(limit, 4, tp_dst(5)), Err((13, 0)));
    }
    // With two hops a link leads on, and it is still travelling; but 13 is carved,
    // and entry 1 taken up.
    let at_2 = Ok(at_once(2, tp_dst(5)));
    assert_eq!(list(2, 4, tp_dst(5)), at_2);
    assert_eq!(list(2, 3, tp_dst(5)), Err((13, 0)));
    // With one, no stop follows.
    assert_eq!(list(1, 3, tp_dst(5)), at_2);
    assert_eq!(list(1, 2, tp_dst(5)), Err((13, 0)));
    // Packets that start with tp_dst 7 are lost, but not with it.
    assert_eq!(list(3, 5, tp_dst(7)), Ok(at_once(2, tp_dst(7))));
    let run = |limit| agreed(RUN, &file, 96, &run_query(1, limit, [0, 0, 7, 0])).unwrap();
    assert_eq!(run(3)[..10], [LOST, 0, 13, 2, 0, 0, 5, 0, 0, 1]);
    assert_eq!(run(2)[..10], [TRAVELLING, 0, 13, 2, 0, 0, 5, 0, 0, 1]);
}

/// Three units. What has tp_dst 80 leaves under one choice and is lost under the
/// other; its run chooses nothing.
#[test]
fn lost_under_one_choice() {
    let file = write(&lost_by_choice());
    let asked = wild_query(0, 2, 3).about(tp_dst(80));
    let found = find_words(1, &[1], tp_dst(80));
    let expected = [at_once(2, tp_dst(80)), found].concat();
    assert_eq!(agreed(LIST, &file, 76, &asked), Ok(expected));
    refused(LIST, &file, 76, &Query { budget: 2, ..asked }, 13);
    let left = Query { port: 2, ..asked };
    let by_entry_0 = find_words(1, &[0], tp_dst(80));
    assert_eq!(agreed(LIST, &file, 40, &left), Ok(by_entry_0));
    let run = agreed(RUN, &file, 96, &run_query(1, 2, [0, 0, 80, 0])).unwrap();
    assert_eq!(run[..4], [TIED, 0, 1, 0]);
    // Where all equals together hold every header, nothing is lost.
    let dropped_or_left = write(&leak_by_choice());
    let asked = wild_query(0, 16, 1);
    let at_2 = Ok(at_once(2, Set::ALL_WILD));
    assert_eq!(agreed(LIST, &dropped_or_left, 36, &asked), at_2);
}

/// Edge port 5, the link's end 7, edge port 20: two units, one at 5 and one for
/// entry 0.
#[test]
fn ports_are_taken_in_rising_number() {
    let even = Set {
        value: 0,
        ..odd_tp_dst()
    };
    let file = write(&a_link_end_between_edges());
    let over_the_link = find_words(5, &[0], odd_tp_dst());
    let at_5 = at_once(5, even);
    let at_20 = at_once(20, Set::ALL_WILD);
    let all = [&at_5[..], &over_the_link, &at_20].concat();
    assert_eq!(agreed(LIST, &file, 200, &wild_query(0, 2, 2)), Ok(all));
    refused(LIST, &file, 200, &wild_query(0, 2, 1), 13);
    // At limit 1 nothing is taken up behind the link.
    let at_once = [&at_5[..], &at_20].concat();
    assert_eq!(agreed(LIST, &file, 72, &wild_query(0, 1, 1)), Ok(at_once));
}

/// All entries of a port carve, whatever their priority, in the file's order: entry 0,
/// of the lowest priority, leaves two parts, of which entry 1 covers the second.
#[test]
fn all_entries_carve_in_file_order() {
    let of = |care, value| Set::of_words([0, 0, care, 0], [0, 0, value, 0]);
    let mut entries = [entry(1, 1, 0), entry(9, 1, 0), entry(5, 1, 0)];
    entries[0].matching = of(3, 3);
    entries[1].matching = of(2, 2);
    entries[2].matching = of(4, 4);
    let file = write(&fabric(&[edge(1, 1)], &[], &entries));
    // One trial of the whole; of the first part, which entry 1 doesn't meet, two; of
    // the second one.
    let expected = at_once(1, of(6, 0));
    assert_eq!(agreed(LIST, &file, 36, &wild_query(0, 1, 4)), Ok(expected));
    refused(LIST, &file, 36, &wild_query(0, 1, 3), 13);
}

/// In-ports that are neither an edge nor a link's end have no packets to lose, and
/// no units; no edge, no find.
#[test]
fn where_nothing_comes_in() {
    let dead_end = fabric(&[], &[link(10, 11)], &[entry(1, 12, 2), entry(1, 11, 2)]);
    let file = write(&dead_end);
    assert_eq!(agreed(LIST, &file, 0, &wild_query(0, 16, 1)), Ok(vec![]));
    refused(LIST, &file, 0, &wild_query(0, 16, 0), 13);
    let nothing = write(&Fabric::default());
    assert_eq!(agreed(LIST, &nothing, 0, &wild_query(0, 1, 0)), Ok(vec![]));
    let new = write(&under_1_3(Fabric::default()));
    assert_eq!(to_le_words(&new), [0x1801_0002, 0x5000_0000]);
    refused(LIST, &new, 0, &wild_query(0, 1, 0), 8);
}

/// Under 1.3: fate 1 with the in-port, and neither hop nor header changes.
#[test]
fn dropped_by_a_miss() {
    let run = |fabric: Fabric, start, limit, header| {
        let file = write(&under_1_3(fabric));
        let words = agreed(RUN, &file, 96, &run_query(start, limit, header)).unwrap();
        assert!(words[10..].iter().all(|&word| word == 0));
        words[..10].to_vec()
    };
    let header = [5, 6, 8, 9];
    let at_1 = run(lost_at_once(), 1, 1, header);
    assert_eq!(at_1, [DROPPED, 0, 1, 0, 5, 6, 8, 9, 0, 0]);
    let at_13 = run(lost_after_two_hops(), 1, 3, header);
    assert_eq!(at_13, [DROPPED, 0, 13, 2, 5, 6, 5, 9, 0, 1]);
    let before_13 = run(lost_after_two_hops(), 1, 2, header);
    assert_eq!(before_13, [TRAVELLING, 0, 13, 2, 5, 6, 5, 9, 0, 1]);
    let at_2 = run(lost_after_two_hops(), 2, 16, header);
    assert_eq!(at_2, [DROPPED, 0, 2, 0, 5, 6, 8, 9, 0, 0]);
    // What an entry takes, and a tie, are as they were.
    let left = run(lost_at_once(), 1, 1, [5, 6, 7, 9]);
    assert_eq!(left, [LEFT, 0, 2, 1, 5, 6, 7, 9, 0, 0]);
    let tied = run(lost_by_choice(), 1, 2, [0, 0, 80, 0]);
    assert_eq!(tied, [TIED, 0, 1, 0, 0, 0, 80, 0, 0, 0]);
}

/// What the proved program prints.
#[test]
fn the_program() {
    let ask = |call, asked: &Query, fabric: &Fabric| {
        let bytes = input(call, asked, &write(fabric));
        let text = printed(&bytes);
        assert_eq!(text, print(&bytes));
        text
    };
    let (old, new) = (lost_after_two_hops(), under_1_3(lost_after_two_hops()));
    let lost = wild_query(0, 16, 5).about(tp_dst(5));
    let listed = ask(LIST.number, &lost, &old);
    assert!(listed.starts_with("ok 20\n60000002\n00000000\n"));
    assert!(listed.contains("\n60002001\n70000000\n70000001\n"));
    assert_eq!(ask(LIST.number, &lost, &new), "no 8 at 0\n");
    assert_eq!(ask(VERDICT.number, &lost, &old), "no 8 at 0\n");
    let run = run_query(1, 16, [0; 4]);
    let head = "00000000\n0000000d\n00000002\n";
    let of_old = ask(RUN.number, &run, &old);
    assert!(of_old.starts_with(&format!("ok 24\n00000002\n{head}")));
    let of_new = ask(RUN.number, &run, &new);
    assert!(of_new.starts_with(&format!("ok 24\n00000001\n{head}")));
}
