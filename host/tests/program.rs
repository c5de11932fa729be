//! The proved program against the reference.

mod common;

use common::program::{printed, printed_in_pieces};
use reference::examples::{
    fabric_f, leak_by_choice, replies_behind_a_link, run_query, swapped_and_dropped, wild_query,
};
use reference::file::write;
use reference::query::{input, print, RUN, VERDICT};
use reference::random::{any, cases, damage, list_query, packet};

/// The calls that the program knows are those from here to the run.
const FIRST_CALL: u32 = VERDICT;
const NO_14: &str = "no 14 at 0\n";

#[test]
fn random_inputs() {
    cases(2_000_000, 1500, |rng| {
        let fabric = any(rng);
        let call = rng.between(FIRST_CALL as usize, RUN as usize) as u32;
        let asked = match call {
            RUN => packet(rng, &fabric),
            _ => list_query(rng, &fabric, 10_000),
        };
        let mut file = write(&fabric);
        if rng.once_in(3) {
            file = damage(&file, rng);
        }
        let mut bytes = input(call, &asked, &file);
        match rng.below(12) {
            0 => bytes.truncate(rng.below(60)),
            1 => bytes.resize(bytes.len() + rng.between(1, 5), 0),
            _ => (),
        }
        assert_eq!(printed(&bytes), print(&bytes));
    });
}

#[test]
fn inputs_that_stop_short() {
    let whole = input(RUN, &run_query(1, 1, [0; 4]), &fabric_f());
    for length in (0..60).chain([whole.len() - 1, whole.len()]) {
        assert_eq!(printed(&whole[..length]), print(&whole[..length]));
    }
}

#[test]
fn unknown_calls() {
    let unknown = (0..FIRST_CALL).chain([4, 5, 0x103, 0x0300_0000, u32::MAX]);
    for call in unknown {
        assert_eq!(
            printed(&input(call, &wild_query(2, 1, 2), &fabric_f())),
            NO_14
        );
        assert_eq!(printed(&input(call, &wild_query(9, 99, 0), &[])), NO_14);
    }
}

#[test]
fn inputs_longer_than_any_fabric() {
    for length in [40_200, 40_201, 40_204, 65_536, 100_000, 3_000_000] {
        let mut file = fabric_f();
        file.resize(length, 0);
        let bytes = input(RUN, &run_query(1, 1, [0; 4]), &file);
        assert_eq!(printed(&bytes), print(&bytes), "{length} bytes");
    }
}

/// A pipe may give a few bytes at a time.
#[test]
fn inputs_that_come_in_pieces() {
    let whole = input(RUN, &run_query(1, 1, [0, 0x0a00_0002, 2, 0]), &fabric_f());
    for size in [1, 3, 47, 48, 49, 100] {
        assert_eq!(printed_in_pieces(&whole, size), print(&whole));
    }
}

/// Fate 4, of the packet that a verdict shows.
#[test]
fn a_tied_run() {
    let file = write(&leak_by_choice());
    let asked = input(RUN, &run_query(1, 16, [0, 0, 80, 0]), &file);
    let text = printed(&asked);
    assert_eq!(text, print(&asked));
    assert!(text.starts_with("ok 24\n00000004\n00000000\n00000001\n00000000\n"));
    let asked = input(VERDICT, &wild_query(2, 16, 1), &file);
    let text = printed(&asked);
    assert_eq!(text, print(&asked));
    assert!(text.starts_with("ok 24\n00000001\n"));
}

/// A reply's run, and a drop's that swaps; a transfer of 3 is refused.
#[test]
fn runs_of_replies() {
    let replies = write(&replies_behind_a_link());
    let ask = |file: &[u8], header| {
        let asked = input(RUN, &run_query(1, 16, header), file);
        let text = printed(&asked);
        assert_eq!(text, print(&asked));
        text
    };
    let left = ask(&replies, [4, 0x0a00_0009, 5, 6]);
    assert!(left.starts_with(
        "ok 24\n00000000\n00000000\n00000002\n00000003\n0a000009\n00000004\n00000005\n00000006\n"
    ));
    let dropped = ask(&write(&swapped_and_dropped()), [1, 2, 7, 3]);
    assert!(dropped.starts_with(
        "ok 24\n00000001\n00000000\n00000001\n00000001\n00000002\n00000001\n00000007\n00000003\n"
    ));
    // Entry 1 begins at word 39; its second word ends at byte 163.
    let mut refused = replies.clone();
    assert_eq!(refused[163], 0x20);
    refused[163] = 0x30;
    assert_eq!(ask(&refused, [0; 4]), "no 3 at 39\n");
}

mod trace {
    use super::*;
    use reference::examples::many_finds;
    use reference::query::LIST;

    /// E2 of document 01, as it is printed there.
    #[test]
    fn the_list_of_f() {
        let words = "60001001 70000001 00000000 ffffffff 00000002 00000000 00000000 0a000002 \
                     00000002 00000000 60001001 70000001 00000000 ffffffff 00000003 00000000 \
                     00000000 0a000002 00000000 00000000";
        let expected = format!("ok 20\n{}\n", words.replace(' ', "\n"));
        let asked = input(LIST, &wild_query(2, 1, 2), &fabric_f());
        assert_eq!(printed(&asked), expected);
    }

    /// 65,536 bytes are 16,384 words: 1,634 finds of ten and 4 of eleven.
    #[test]
    fn the_longest_list() {
        for (near, far, fits) in [(1634, 4, true), (1633, 5, false), (1638, 0, true)] {
            let asked = input(LIST, &wild_query(1, 2, 31), &write(&many_finds(near, far)));
            let text = printed(&asked);
            assert_eq!(text, print(&asked));
            assert_eq!(text != "no 12 at 0\n", fits, "{near} and {far}");
        }
    }
}
